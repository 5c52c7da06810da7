//! The declarations in Rust, of the crate and of the trials, are those of the header; and what the header answers by
//! itself, its version, sentences and draws from alias tables, is what the crate answers.

mod random;

use light_tree::{AliasTable, PowerAliasBin, Refusal, library_version};
use random::Random;
use std::io::Write;
use std::process::{Command, Stdio};

/// Name, types of the arguments, type of the answer.
type Function = (String, Vec<String>, String);

fn one_line(text: &str) -> String {
    text.split_whitespace().collect::<Vec<_>>().join(" ")
}

/// What Rust calls a type of C.
fn rust_type(c: &str) -> String {
    let (pointer, of) = match (c.strip_prefix("const "), c.strip_suffix('*')) {
        (Some(rest), Some(_)) => ("*const ", rest.trim_end_matches('*').trim()),
        (None, Some(rest)) => ("*mut ", rest.trim()),
        _ => ("", c),
    };
    let plain = match of {
        "uint8_t" => "u8",
        "uint32_t" => "u32",
        "uint64_t" => "u64",
        "size_t" => "usize",
        "float" => "f32",
        other => panic!("no type {other}"),
    };
    format!("{pointer}{plain}")
}

/// The functions that the header declares and does not define.
fn header() -> Vec<Function> {
    let text = include_str!("../../../include/light_tree.h");
    let starts = text.match_indices("\nuint").map(|(at, _)| at + 1);
    let declarations = starts.map(|at| one_line(&text[at..at + text[at..].find(';').unwrap()]));
    let function = |declaration: String| {
        let (front, arguments) = declaration.strip_suffix(')').unwrap().split_once('(').unwrap();
        let (answer, name) = front.split_once(' ').unwrap();
        let of_argument = |argument: &str| {
            let name = argument.rfind(|c: char| !c.is_alphanumeric() && c != '_').unwrap() + 1;
            rust_type(argument[..name].trim())
        };
        let arguments = arguments.split(',').map(str::trim).filter(|argument| *argument != "void");
        (name.into(), arguments.map(of_argument).collect(), rust_type(answer))
    };
    declarations.map(function).collect()
}

/// The functions of the library that a text of Rust declares; the trials declare more behind them.
fn declared(text: &str) -> Vec<Function> {
    let start = text.find("unsafe extern \"C\" {").unwrap();
    let block = one_line(&text[start..start + text[start..].find("\n}").unwrap()]);
    let declarations = block.split("fn ").filter(|declaration| declaration.starts_with("light_"));
    let function = |declaration: &str| {
        let (name, rest) = declaration.split_once('(').unwrap();
        let (arguments, answer) = rest.split_once(';').unwrap().0.split_once(") -> ").unwrap();
        let arguments = arguments.split(',').map(str::trim).filter(|argument| !argument.is_empty());
        let types = arguments.map(|argument| argument.split_once(": ").unwrap().1.into()).collect();
        (name.into(), types, answer.into())
    };
    declarations.map(function).collect()
}

#[test]
fn declarations() {
    for text in [include_str!("../src/sys.rs"), include_str!("../../trials/src/proved/c.rs")] {
        assert_eq!(declared(text), header());
    }
    assert_eq!(header().len(), 7);
}

/// What `header.c` prints, compiled with these flags, of so many sentences and of cases.
fn printed(flags: &[&str], sentences: u32, cases: &str) -> Vec<String> {
    let (here, out) = (env!("CARGO_MANIFEST_DIR"), env!("CARGO_TARGET_TMPDIR"));
    let program = format!("{out}/header{}", flags.concat());
    let mut compile = Command::new("cc");
    compile.args(["-std=c99", "-O2", "-Wall", "-Werror"]).args(flags).arg(format!("-I{here}/../../include"));
    assert!(compile.arg(format!("{here}/tests/header.c")).args(["-o", &program]).status().unwrap().success());
    let run = Command::new(&program).arg(sentences.to_string()).stdin(Stdio::piped()).stdout(Stdio::piped()).spawn();
    let mut run = run.unwrap();
    let (mut input, cases) = (run.stdin.take().unwrap(), cases.to_string());
    let feed = std::thread::spawn(move || input.write_all(cases.as_bytes()));
    let output = run.wait_with_output().unwrap();
    assert!(feed.join().unwrap().is_ok() && output.status.success());
    String::from_utf8(output.stdout).unwrap().lines().map(str::to_string).collect()
}

/// A draw as the header's number.
fn number(draw: Result<Option<(u32, f32)>, Refusal>) -> u64 {
    match draw {
        Ok(Some((place, chance))) => u64::from(place) << 32 | u64::from(chance.to_bits()),
        Ok(None) => 1 << 62,
        Err(refusal) => 1 << 63 | u64::from(refusal.number()),
    }
}

/// Draws of random tables by any u, most of them near where a draw changes, and as many draws in C: words, and answers.
fn alias_cases() -> (String, Vec<u64>) {
    let mut random = Random(3);
    let (mut words, mut answers) = (String::new(), Vec::new());
    for _ in 0..2_000 {
        let count = [0, 1, 2, 3, 7, 60, 1000][random.below(7)];
        let weights: Vec<f32> = (0..count).map(|_| [0.0, 1.0, random.share(), 9.0][random.below(4)]).collect();
        let table = AliasTable::build(&weights).unwrap();
        let end = |random: &mut Random| match table.bins() {
            [] => 0.5,
            bins => {
                let place = random.below(bins.len());
                (place as f32 + bins[place].q * [0.0, 1.0][random.below(2)]) / bins.len() as f32
            }
        };
        let near = (end(&mut random).to_bits() as i32 + random.below(9) as i32 - 4) as u32;
        let u = [near, near, random.share().to_bits(), random.word() as u32][random.below(4)];
        words += &format!("{count:x}");
        for PowerAliasBin { q, p, alias } in table.bins() {
            words += &format!(" {:x} {:x} {alias:x}", q.to_bits(), p.to_bits());
        }
        words += &format!(" {u:x}\n");
        answers.push(number(table.sample(f32::from_bits(u))));
    }
    (words, answers)
}

/// Without and, where the machine has it, with the instruction that would round a product and a sum as one.
#[test]
fn answers_of_the_header() {
    let (cases, answers) = alias_cases();
    let fused: &[&[&str]] = if is_x86_feature_detected!("fma") { &[&["-mfma", "-ffp-contract=fast"]] } else { &[] };
    for flags in [&[] as &[&str]].iter().chain(fused) {
        let lines = printed(flags, 1001, &cases);
        let (own, draws) = lines.split_at(1002);
        assert_eq!(own[0], library_version().to_string());
        for (i, sentence) in own[1..].iter().enumerate().skip(1) {
            let known = Refusal::from_number(i as u32).map(|refusal| refusal.to_string());
            assert_eq!(sentence, &known.unwrap_or_else(|| own[1001].clone()), "refusal {i}");
        }
        let draws: Vec<u64> = draws.iter().map(|line| u64::from_str_radix(line, 16).unwrap()).collect();
        assert_eq!(draws, answers);
    }
}

/// The crate's own version is the library's.
#[test]
fn version() {
    let parts = [env!("CARGO_PKG_VERSION_MAJOR"), env!("CARGO_PKG_VERSION_MINOR"), env!("CARGO_PKG_VERSION_PATCH")];
    let [major, minor, patch] = parts.map(|part| part.parse::<u32>().unwrap());
    assert_eq!(library_version(), 10_000 * major + 100 * minor + patch);
}
