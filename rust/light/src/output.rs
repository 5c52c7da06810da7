//! Standard output, with progress on standard error where someone sits before it.

use crate::text::Stop;
use std::io::{IsTerminal, Write, stderr, stdout};
use std::os::unix::fs::FileTypeExt;
use std::time::{Duration, Instant};

/// How long a run takes before it says how far it is.
const LONG: Duration = Duration::from_secs(2);
/// How long rows wait for each other on a terminal.
const SOON: Duration = Duration::from_millis(100);
/// So many bytes wait elsewhere.
const MUCH: usize = 1 << 16;

pub struct Output {
    waiting: Vec<u8>,
    /// Whether what waits is kept for the caller, and standard output left alone.
    kept: bool,
    terminal: bool,
    /// Whether progress is said: standard error is a terminal, and standard output no pipe, as to a pager that shares
    /// the terminal.
    progress: bool,
    said: bool,
    began: Instant,
    flushed: Instant,
}

impl Output {
    /// To standard output.
    pub fn standard() -> Output {
        let pipe = std::fs::metadata("/dev/stdout").is_ok_and(|output| output.file_type().is_fifo());
        Output {
            waiting: Vec::new(),
            kept: false,
            terminal: stdout().is_terminal(),
            progress: stderr().is_terminal() && !pipe,
            said: false,
            began: Instant::now(),
            flushed: Instant::now(),
        }
    }

    /// To be taken by `into_bytes`.
    pub fn kept() -> Output {
        Output { kept: true, terminal: false, progress: false, ..Output::standard() }
    }

    /// What was written and kept.
    pub fn into_bytes(self) -> Vec<u8> {
        self.waiting
    }

    pub fn text(&mut self, text: &str) {
        self.waiting.extend_from_slice(text.as_bytes());
    }

    pub fn line(&mut self, line: &str) {
        self.text(line);
        self.text("\n");
    }

    /// Words, the lowest byte first, which no terminal shows.
    pub fn words(&mut self, words: &[u32]) -> Result<(), Stop> {
        if self.terminal {
            return Err(Stop::Failed("words are for a file or a pipe: send standard output there".into()));
        }
        self.waiting.extend(words.iter().flat_map(|word| word.to_le_bytes()));
        Ok(())
    }

    /// Between two rows: writes what waits if it is much or has waited long, and says how far the work is.
    pub fn pause(&mut self, far: impl FnOnce() -> String) -> Result<(), Stop> {
        if (self.terminal || self.progress) && self.flushed.elapsed() >= SOON {
            self.flush()?;
            if self.progress && self.began.elapsed() >= LONG {
                let _ = write!(stderr(), "\rlight: {}\x1b[K", far());
                self.said = true;
            }
        } else if self.waiting.len() >= MUCH {
            self.flush()?;
        }
        Ok(())
    }

    pub fn flush(&mut self) -> Result<(), Stop> {
        self.hush();
        if self.kept {
            return Ok(());
        }
        let written = stdout().write_all(&self.waiting).and_then(|()| stdout().flush());
        self.waiting.clear();
        self.flushed = Instant::now();
        written.map_err(|error| match error.kind() {
            std::io::ErrorKind::BrokenPipe => Stop::Unread,
            _ => Stop::Failed(format!("standard output: {error}")),
        })
    }

    /// Takes back what was said of the progress.
    pub fn hush(&mut self) {
        if std::mem::take(&mut self.said) {
            let _ = write!(stderr(), "\r\x1b[K");
        }
    }
}
