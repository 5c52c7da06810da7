//! What the programs `run` and `bench` share: a table of parts, the help that is made from it, and how a part
//! is called and ends.

use std::process::ExitCode;

/// Whether all is as it is to be, or why the part could not be called: its arguments, or a file.
pub type Ended = Result<bool, String>;

/// One thing that a program does.
pub struct Part {
    pub name: &'static str,
    /// Its arguments, as help shows them.
    pub takes: &'static str,
    pub does: &'static str,
    pub time: &'static str,
    pub call: fn(&[String]) -> Ended,
}

impl Part {
    fn help(&self) -> String {
        format!("  {}\n      {}\n      {}\n", [self.name, self.takes].join(" ").trim_end(), self.does, self.time)
    }
}

/// Calls the part that the program's arguments name. The program ends with 0 where all is as it is to be,
/// with 1 where something is not, and with 2 where the part could not be called.
pub fn main(program: &str, about: &str, parts: &[Part]) -> ExitCode {
    let arguments: Vec<String> = std::env::args().skip(1).collect();
    let all = || parts.iter().map(Part::help).collect::<String>();
    let is_help = |word: &String| ["--help", "-h", "help"].contains(&word.as_str());
    let Some((name, rest)) = arguments.split_first().filter(|(name, _)| !is_help(name)) else {
        print!("{program} PART …: {about}\n\n{}", all());
        return if arguments.is_empty() { ExitCode::from(2) } else { ExitCode::SUCCESS };
    };
    let Some(part) = parts.iter().find(|part| part.name == *name) else {
        eprintln!("{program}: there is no part {name}; `{program} --help` lists them");
        return ExitCode::from(2);
    };
    if rest.first().is_some_and(is_help) {
        print!("{}", part.help());
        return ExitCode::SUCCESS;
    }
    match (part.call)(rest) {
        Ok(good) => ExitCode::from(u8::from(!good)),
        Err(why) => {
            eprintln!("{program} {name}: {why}; `{program} {name} --help` tells how it is called");
            ExitCode::from(2)
        }
    }
}

/// Numbers, of which the first so many must be given and the others are the usual ones where they are not.
pub fn numbers<const N: usize>(arguments: &[String], least: usize, usual: [u64; N]) -> Result<[u64; N], String> {
    if arguments.len() < least || arguments.len() > N {
        return Err(format!("{} arguments are given", arguments.len()));
    }
    let mut numbers = usual;
    for (number, word) in numbers.iter_mut().zip(arguments) {
        *number = word.parse().map_err(|_| format!("{word} is no whole number"))?;
    }
    Ok(numbers)
}

/// COUNT, and SEED, 1 where it is not given.
pub fn count_and_seed(arguments: &[String]) -> Result<(u64, u64), String> {
    numbers(arguments, 1, [0, 1]).map(|[count, seed]| (count, seed))
}

/// That a part takes no arguments.
pub fn none(arguments: &[String]) -> Result<(), String> {
    numbers(arguments, 0, []).map(|[]| ())
}

/// In place of a part that needs the reference.
#[cfg(not(reference))]
pub fn absent(_: &[String]) -> Ended {
    eprintln!(
        "The reference was absent when this program was built: ../shared/docs, or the folder that \
        COLTOCTOBER_REFERENCE names. There is nothing to hold the proved functions against."
    );
    Ok(false)
}

/// The function of a part that needs the reference.
#[macro_export]
macro_rules! with_reference {
    ($call:expr) => {{
        #[cfg(reference)]
        let call = $call;
        #[cfg(not(reference))]
        let call = $crate::parts::absent;
        call
    }};
}
