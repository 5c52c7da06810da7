//! Where text comes from: rooms whole, benches line by line.

use crate::bench::{self, Bench};
use crate::room::Room;
use crate::text::{Stop, Wrong, counted, line_of, unmarked};
use std::fs::File;
use std::io::{BufRead, BufReader, Read, stdin};

/// A file or standard input, which `-` names.
struct Source {
    /// What it is called in messages.
    name: String,
    from: Box<dyn Read>,
    /// How many bytes it has, where that is known.
    size: Option<u64>,
}

impl Source {
    fn open(path: &str) -> Result<Source, Stop> {
        if path == "-" {
            return Ok(Source { name: "standard input".into(), from: Box::new(stdin()), size: None });
        }
        let file = File::open(path).map_err(|error| failed(path, &error))?;
        let kind = file.metadata().map_err(|error| failed(path, &error))?;
        if kind.is_dir() {
            return Err(Stop::Failed(format!("{path}: this is a folder")));
        }
        Ok(Source { name: path.into(), size: kind.is_file().then_some(kind.len()), from: Box::new(file) })
    }
}

fn failed(name: &str, error: &std::io::Error) -> Stop {
    Stop::Failed(format!("{name}: {error}"))
}

/// Whether standard input stands for one of two files at most.
pub fn once(room: &str, benches: &str) -> Result<(), Stop> {
    match (room, benches) {
        ("-", "-") => Err(Stop::Failed("standard input is either the room or the benches".into())),
        _ => Ok(()),
    }
}

/// A whole file: what it is called, and its text without the byte order mark that it may begin with.
pub fn whole(path: &str) -> Result<(String, Vec<u8>), Stop> {
    let Source { name, mut from, .. } = Source::open(path)?;
    let mut text = Vec::new();
    from.read_to_end(&mut text).map_err(|error| failed(&name, &error))?;
    Ok((name, unmarked(&text).to_vec()))
}

pub fn room(path: &str) -> Result<Room, Stop> {
    let (name, text) = whole(path)?;
    Room::read(&name, &text)
}

/// All benches of a table.
pub fn benches(path: &str) -> Result<Vec<Bench>, Stop> {
    let mut lines = Lines::open(path)?;
    let mut benches = Vec::new();
    while lines.advance()? {
        benches.extend(lines.bench()?);
    }
    Ok(benches)
}

/// The lines of a table, read as they are asked for.
pub struct Lines {
    pub name: String,
    from: BufReader<Box<dyn Read>>,
    size: Option<u64>,
    /// How many bytes were.
    had: u64,
    /// The last line's, from 1 on.
    pub number: usize,
    line: Vec<u8>,
}

impl Lines {
    pub fn open(path: &str) -> Result<Lines, Stop> {
        let Source { name, from, size } = Source::open(path)?;
        Ok(Lines { name, from: BufReader::new(from), size, had: 0, number: 0, line: Vec::new() })
    }

    /// Reads the next line, where there is one.
    pub fn advance(&mut self) -> Result<bool, Stop> {
        self.line.clear();
        let read = self.from.read_until(b'\n', &mut self.line).map_err(|error| failed(&self.name, &error))?;
        self.line.truncate(self.line.strip_suffix(b"\n").unwrap_or(&self.line).len());
        if self.number == 0 {
            self.line = unmarked(&self.line).to_vec();
        }
        self.had += read as u64;
        self.number += 1;
        Ok(read > 0)
    }

    /// The bench of this line, none where it is empty.
    pub fn bench(&self) -> Result<Option<Bench>, Stop> {
        self.read().map_err(|wrong| wrong.in_line(&self.name, self.number))
    }

    /// The same, where what is wrong is not yet told.
    pub fn read(&self) -> Result<Option<Bench>, Wrong> {
        line_of(&self.line).and_then(|text| bench::bench(self.number, text))
    }

    /// Whether the next line may have to be waited for.
    pub fn waits(&self) -> bool {
        self.from.buffer().is_empty()
    }

    pub fn far(&self, benches: usize) -> String {
        match self.size {
            Some(size) if size > 0 => {
                format!("{}, {} %", counted(benches, "bench", "benches"), 100 * self.had.min(size) / size)
            }
            _ => counted(benches, "bench", "benches"),
        }
    }
}
