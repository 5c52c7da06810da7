//! Text tables: words of a line with their columns, numbers, and what is said of text that cannot be read.

/// Why the program ends early, and with which status.
pub enum Stop {
    /// What was handed in cannot be taken: 1.
    Refused(String),
    /// Something else failed: 2.
    Failed(String),
    /// Nobody reads on: 2, without a word.
    Unread,
}

impl std::fmt::Display for Stop {
    fn fmt(&self, f: &mut std::fmt::Formatter) -> std::fmt::Result {
        f.write_str(match self {
            Stop::Refused(why) | Stop::Failed(why) => why,
            Stop::Unread => "nobody reads on",
        })
    }
}

/// A wrong place in a line: its column, counted in characters from 1, and what is wrong.
pub struct Wrong {
    pub column: usize,
    pub why: String,
}

impl Wrong {
    pub fn at(column: usize, why: impl Into<String>) -> Wrong {
        Wrong { column, why: why.into() }
    }

    /// What is said of it, with its file and line.
    pub fn told(&self, name: &str, line: usize) -> String {
        format!("{name}: line {line}, column {}: {}", self.column, self.why)
    }

    /// The same, where it ends the program.
    pub fn in_line(self, name: &str, line: usize) -> Stop {
        Stop::Refused(self.told(name, line))
    }
}

/// A word of a line.
#[derive(Clone, Copy)]
pub struct Word<'a> {
    pub column: usize,
    pub text: &'a str,
}

/// A line of a table: the name that it may begin with, and its words up to its comment, `|` always a word of its own.
pub struct Line<'a> {
    pub name: Option<String>,
    pub words: Vec<Word<'a>>,
    /// The column behind the last word.
    pub end: usize,
}

impl Line<'_> {
    pub fn of(text: &str) -> Result<Line<'_>, Wrong> {
        let blank = text.len() - text.trim_start().len();
        let Some(quoted) = text[blank..].strip_prefix('"') else {
            let (words, end) = words(text, 0);
            return Ok(Line { name: None, words, end });
        };
        let column = text[..blank].chars().count() + 1;
        let (name, rest) = name(quoted, column)?;
        let (words, end) = words(rest, text[..text.len() - rest.len()].chars().count());
        Ok(Line { name: Some(name), words, end })
    }

    /// Whether there is nothing on it.
    pub fn is_empty(&self) -> bool {
        self.name.is_none() && self.words.is_empty()
    }
}

/// The name behind an opening quote at a column, up to its closing one, and what stands behind that.
fn name(quoted: &str, column: usize) -> Result<(String, &str), Wrong> {
    let mut name = String::new();
    let mut characters = quoted.char_indices().zip(column + 1..).peekable();
    while let Some(((at, c), here)) = characters.next() {
        if c != '"' {
            name.push(is_writing(c).then_some(c).ok_or_else(|| Wrong::at(here, "a name has no control characters"))?);
        } else if characters.next_if(|((_, next), _)| *next == '"').is_some() {
            name.push('"');
        } else {
            let rest = &quoted[at + 1..];
            return match rest.chars().next() {
                _ if name.is_empty() => Err(Wrong::at(column, "an empty name: leave it out")),
                Some(c) if !c.is_whitespace() => Err(Wrong::at(here + 1, "a blank belongs behind a name")),
                _ => Ok((name, rest)),
            };
        }
    }
    Err(Wrong::at(column, "the name that begins here has no closing quote"))
}

/// Whether a character may stand in a name: no control, no end of a line, none that XML cannot hold.
fn is_writing(c: char) -> bool {
    !c.is_control() && !matches!(c, '\u{2028}' | '\u{2029}' | '\u{fffe}' | '\u{ffff}')
}

/// A name as it stands in a table.
pub fn quoted(name: &str) -> String {
    format!("\"{}\"", name.replace('"', "\"\""))
}

/// What something is called, a name behind it where there is one.
pub fn called(what: &str, name: Option<&str>) -> String {
    name.map_or_else(|| what.into(), |name| format!("{what} {}", quoted(name)))
}

/// Words of a text up to its comment, which stands behind so many characters; and the column behind the last.
fn words(text: &str, before: usize) -> (Vec<Word<'_>>, usize) {
    let mut words: Vec<Word> = Vec::new();
    let mut start = None;
    let mut end = before + 1;
    for ((at, c), column) in text.char_indices().zip(before + 1..) {
        let apart = c == '|' || c == '#' || c.is_whitespace();
        match start {
            Some((from, column)) if apart => {
                words.push(Word { column, text: &text[from..at] });
                start = None;
            }
            None if !apart => start = Some((at, column)),
            _ => {}
        }
        if c == '#' {
            return (words, end);
        }
        if c == '|' {
            words.push(Word { column, text: &text[at..at + 1] });
        }
        if !c.is_whitespace() {
            end = column + 1;
        }
    }
    if let Some((from, column)) = start {
        words.push(Word { column, text: &text[from..] });
    }
    (words, end)
}

/// A table without the byte order mark that it may begin with.
pub fn unmarked(bytes: &[u8]) -> &[u8] {
    bytes.strip_prefix(b"\xef\xbb\xbf").unwrap_or(bytes)
}

/// A line as text.
pub fn line_of(bytes: &[u8]) -> Result<&str, Wrong> {
    str::from_utf8(bytes).map_err(|error| {
        let good = str::from_utf8(&bytes[..error.valid_up_to()]).unwrap_or_default();
        let utf_16 = bytes.starts_with(&[0xff, 0xfe]) || bytes.starts_with(&[0xfe, 0xff]);
        let hint = if utf_16 { ", it seems to be UTF-16: save the file as UTF-8" } else { "" };
        Wrong::at(good.chars().count() + 1, format!("no text in UTF-8{hint}"))
    })
}

/// The float of a decimal or of a word such as 0x3f800000.
pub fn number(word: Word) -> Result<f32, Wrong> {
    let Word { column, text } = word;
    let hexadecimal = text.strip_prefix("0x").or(text.strip_prefix("0X"));
    if let Some(digits) =
        hexadecimal.filter(|digits| digits.len() == 8 && digits.bytes().all(|c| c.is_ascii_hexdigit()))
    {
        return u32::from_str_radix(digits, 16)
            .map(f32::from_bits)
            .map_err(|error| Wrong::at(column, error.to_string()));
    }
    // Rust reads the names of infinity and NaN too
    let plain = text.bytes().all(|c| c.is_ascii_digit() || b"+-.eE".contains(&c));
    match text.parse::<f32>() {
        Ok(figure) if plain && figure.is_finite() => Ok(figure),
        Ok(_) if plain => Err(Wrong::at(column, format!("'{text}' is past the largest f32"))),
        _ => Err(Wrong::at(column, format!("'{text}' is no number{}", hint(text)))),
    }
}

/// What to write in place of a word that is no number, where that can be guessed.
fn hint(text: &str) -> String {
    let is_number = |text: &str| text.parse::<f32>().is_ok_and(f32::is_finite);
    let point = text.replacen(',', ".", 1).replacen('\u{2212}', "-", 1);
    match text.split_once(',') {
        Some((whole, "")) if is_number(whole) => format!(": write {whole} without the comma"),
        Some((whole, part)) if is_number(&point) && part.len() == 3 && is_number(whole) => {
            format!(": write {point}, or {whole}{part} if thousands are meant")
        }
        _ if point != text && is_number(&point) => format!(": write {point}"),
        _ if text.starts_with('"') => ": a name stands first in its line".into(),
        _ => String::new(),
    }
}

/// As many words as there are names.
pub fn fields<'a, const N: usize>(words: &[Word<'a>], end: usize, names: &str) -> Result<[Word<'a>; N], Wrong> {
    words.try_into().map_err(|_| miscounted(words, N, end, names))
}

/// Words that should be so many: what comes too much is at fault, or the end where some are missing.
pub fn miscounted(words: &[Word], count: usize, end: usize, names: &str) -> Wrong {
    let column = words.get(count).map_or(end, |word| word.column);
    Wrong::at(column, format!("{} in place of {count}: {names}", counted(words.len(), "figure", "figures")))
}

/// As many numbers as there are names.
pub fn numbers<const N: usize>(words: &[Word], end: usize, names: &str) -> Result<[f32; N], Wrong> {
    let mut figures = [0.0; N];
    for (figure, word) in figures.iter_mut().zip(fields::<N>(words, end, names)?) {
        *figure = number(word)?;
    }
    Ok(figures)
}

/// The shortest decimal that is read as the same float.
pub fn decimal(figure: f32) -> String {
    let text = format!("{figure:e}");
    match text.split_once('e').map(|(digits, exponent)| (digits, exponent.parse::<i32>())) {
        Some((digits, Ok(exponent))) if !(-4..16).contains(&exponent) => {
            format!("{digits}e{}{:02}", if exponent < 0 { '-' } else { '+' }, exponent.abs())
        }
        _ => figure.to_string(),
    }
}

/// About a number, in two digits.
pub fn rounded(figure: f64) -> String {
    format!("{figure:.1e}").parse().map_or_else(|_| figure.to_string(), decimal)
}

/// The shortest decimal; a NaN or an infinity as its word.
pub fn decimal_or_word(figure: f32) -> String {
    if figure.is_finite() { decimal(figure) } else { format!("0x{:08x}", figure.to_bits()) }
}

/// "1 bench", "2 benches".
pub fn counted(count: usize, one: &str, more: &str) -> String {
    format!("{count} {}", if count == 1 { one } else { more })
}
