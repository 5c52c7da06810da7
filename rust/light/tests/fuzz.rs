//! Damaged rooms and bench tables through `light check`, `light report` and `light plan`, in one process: none panics,
//! each ends well or with one line, and check finds a fault exactly where a strict report ends with one.
//!
//! The short test takes some thousand of them. The long one takes 10^6, or as many as LIGHT_FUZZ says:
//!
//!     cargo test --release --offline --manifest-path rust/Cargo.toml -p light --test fuzz -- --ignored --nocapture

mod common;

use common::{EXAMPLES, temporary};
use light::output::Output;
use light::text::Stop;
use std::panic::{AssertUnwindSafe, catch_unwind};
use std::path::{Path, PathBuf};

/// Numbers that look drawn.
struct Random(u64);

impl Random {
    fn bits(&mut self) -> u64 {
        self.0 ^= self.0 << 13;
        self.0 ^= self.0 >> 7;
        self.0 ^= self.0 << 17;
        self.0
    }

    fn below(&mut self, count: usize) -> usize {
        (self.bits() % count.max(1) as u64) as usize
    }

    fn one<'a, T: ?Sized>(&mut self, of: &[&'a T]) -> &'a T {
        of[self.below(of.len())]
    }
}

const ROOMS: &[&str] = &[
    "",
    "point 0 0 2 1 1\n",
    "\"by the \"\"window\"\"\" point 0 0 2 1 1\npoint 2 0 2 1 1\n",
    "spot 0 0 2  0 0 -1  9 1  0.9 0.8\nspot 3 0 2  0 0 1  9 1  0.9 0.8 # away\npoint 1 1 2 3 0\n",
    "\"panel\" group 8 1 two | -0.6 -0.2 2.4  0.6 -0.2 2.4  0.6 0.2 2.4  0.24  0 0 -1 | \
     0 0 2  1 0 2  0 1 2  - -\npoint 0 0 2 1 1\n",
    "point 0 0 0 2.387e37 1\npoint 2 0 0 1 1\n",
    "point 0 2 0 1 1\npoint 5 2 0 1 1\npoint 4 1 0 1 1\npoint 5 1 0 1 1\npoint 2 2 0 1 1\npoint 0 0 0 1 1\n",
];
const BENCHES: &[&str] =
    &["", "0 0 1  0 0 1  0.5\n", "\"vice\" 1 0 1 - 0.25\n1 0 1 - 1\n5 1.5 0 - 0.5\n", "0 0 0x3a83126f - 0\n"];
/// What a tired hand, or a spreadsheet, may leave in a table.
const WORDS: &[&str] = &[
    "-",
    "|",
    "#",
    "\"",
    "\"\"",
    "\"a\"",
    "one",
    "two",
    "point",
    "spot",
    "group",
    "0,5",
    "30",
    "-45",
    "1e38",
    "1e39",
    "3.4028235e38",
    "1e-45",
    "-0",
    "0",
    "1",
    "2",
    "0x7f800000",
    "0x7fc00000",
    "0xff800000",
    "0x80000000",
    "0x3f80000g",
    "NaN",
    "inf",
    "1e",
    "+",
    ".",
    "9e99999999999",
    "\u{feff}",
    "\r\n",
    "\n",
    "\t",
    "\0",
    "\u{7f}",
    "\u{2028}",
    "ü",
    "\u{1f4a1}",
    "<b>&amp;</b>",
    "]]>",
    "1 2 3 4 5 6 7 8 9",
    "0.000000000001",
];

/// A table with some damage.
fn damaged(table: &str, random: &mut Random) -> Vec<u8> {
    let mut text = table.as_bytes().to_vec();
    for _ in 0..random.below(4) {
        let at = random.below(text.len() + 1);
        match random.below(8) {
            0 if at < text.len() => text[at] ^= 1 << random.below(8),
            1 if at < text.len() => text[at] = random.bits() as u8,
            2 => text.truncate(at),
            3 => drop(text.splice(at..(at + random.below(9)).min(text.len()), [])),
            4 => drop(text.splice(at..at, random.one(WORDS).bytes())),
            5 => replace_word(&mut text, at, random.one(WORDS)),
            _ => move_line(&mut text, random),
        }
    }
    text
}

/// Another word in the place of the one at or behind a place.
fn replace_word(text: &mut Vec<u8>, at: usize, word: &str) {
    let start = (at..text.len()).find(|at| !text[*at].is_ascii_whitespace()).unwrap_or(text.len());
    let end = (start..text.len()).find(|at| text[*at].is_ascii_whitespace()).unwrap_or(text.len());
    text.splice(start..end, word.bytes());
}

/// A line in another's place, or once more.
fn move_line(text: &mut Vec<u8>, random: &mut Random) {
    let mut lines: Vec<Vec<u8>> = text.split(|byte| *byte == b'\n').map(<[u8]>::to_vec).collect();
    let [a, b] = [random.below(lines.len()), random.below(lines.len())];
    match random.below(3) {
        0 => lines.swap(a, b),
        1 => lines[a] = lines[b].clone(),
        _ => lines.insert(a, lines[b].clone()),
    }
    *text = lines.join(&b'\n');
}

/// How a command ends: well, with one line that refuses what was handed in, or not as it should.
fn ends_well(arguments: &[&str]) -> Result<bool, String> {
    let arguments: Vec<String> = arguments.iter().map(|word| word.to_string()).collect();
    let run = || light::run(&arguments, &mut Output::kept());
    match catch_unwind(AssertUnwindSafe(run)) {
        Ok(Ok(())) => Ok(true),
        Ok(Err(Stop::Refused(why))) if !why.contains('\n') => Ok(false),
        Ok(Err(stop)) => Err(format!("{}: {stop}", arguments[0])),
        Err(_) => Err(format!("{}: panicked", arguments[0])),
    }
}

fn tried(room: &Path, benches: &Path) -> Result<bool, String> {
    let [room, benches] = [room, benches].map(|path| path.to_str().unwrap());
    let good = ends_well(&["check", room, benches])?;
    if ends_well(&["report", "--strict", "--json", room, benches])? != good {
        return Err(format!("check finds {} fault, and the report does not agree", if good { "no" } else { "a" }));
    }
    ends_well(&["plan", room, benches])?;
    Ok(good)
}

/// Files that are gone when they are not needed any more.
struct Files([PathBuf; 2]);

impl Drop for Files {
    fn drop(&mut self) {
        self.0.iter().for_each(|path| drop(std::fs::remove_file(path)));
    }
}

/// A file that no disk waits for, where the machine has such.
fn in_memory(name: &str) -> PathBuf {
    let (memory, path) = (Path::new("/dev/shm"), temporary(name));
    if memory.is_dir() { memory.join(path.file_name().unwrap()) } else { path }
}

fn fuzz(name: &str, seed: u64, count: usize) {
    let examples = ["room.txt", "laboratory.txt", "benches.txt"]
        .map(|file| std::fs::read_to_string(format!("{EXAMPLES}/{file}")).unwrap());
    let [room, laboratory, benches] = examples.each_ref().map(String::as_str);
    let files = Files(["room", "benches"].map(|file| in_memory(&format!("{name}-{file}"))));
    let mut random = Random(seed);
    let mut good = 0;
    for case in 0..count {
        // the larger ones now and then, since their pages are long
        let rooms = if case % 500 == 0 { vec![laboratory] } else { [ROOMS, &[room]].concat() };
        let tables = if case % 50 == 0 { vec![benches] } else { BENCHES.to_vec() };
        let texts = [random.one(&rooms), random.one(&tables)].map(|table| damaged(table, &mut random));
        files.0.iter().zip(&texts).for_each(|(path, text)| std::fs::write(path, text).unwrap());
        match tried(&files.0[0], &files.0[1]) {
            Ok(is_good) => good += usize::from(is_good),
            Err(why) => {
                let [room, benches] = texts.each_ref().map(|text| text.escape_ascii().to_string());
                panic!("case {case} of seed {seed}: {why}\nroom: \"{room}\"\nbenches: \"{benches}\"");
            }
        }
    }
    println!("{count} damaged rooms and tables, {good} of them without a fault");
    // neither all are lost nor all are spared
    assert!(good > count / 50 && good < count - count / 50, "{good} of {count}");
}

#[test]
fn some() {
    fuzz("some", 1, 3000);
}

#[test]
#[ignore = "a long run"]
fn many() {
    let count = std::env::var("LIGHT_FUZZ").map_or(1_000_000, |count| count.parse().unwrap());
    fuzz("many", 2, count);
}
