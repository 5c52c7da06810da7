//! Tables for programs: comma-separated values (RFC 4180) and JSON (RFC 8259), a row at a time.

use crate::commands::Choice;
use crate::options::Options;
use crate::output::Output;
use crate::text::{Stop, decimal};

/// The options of commands that print tables.
pub const CSV: Choice = Choice { name: "csv", value: None, text: "a table of comma-separated values, for programs" };
pub const JSON: Choice = Choice { name: "json", value: None, text: "the same rows as one JSON array" };

#[derive(Clone, Copy, PartialEq)]
pub enum Form {
    Csv,
    Json,
}

impl Form {
    /// The form that is asked for, none for people's text.
    pub fn of(options: &Options) -> Result<Option<Form>, Stop> {
        match [CSV, JSON].map(|choice| options.has(choice.name)) {
            [true, true] => Err(Stop::Failed(format!("light {}: either --csv or --json", options.command.name))),
            [true, _] => Ok(Some(Form::Csv)),
            [_, true] => Ok(Some(Form::Json)),
            _ => Ok(None),
        }
    }
}

/// What stands in a field.
pub enum Value {
    /// Nothing: empty, or null.
    Absent,
    Text(String),
    Whole(u64),
    Single(f32),
    Double(f64),
    Truth(bool),
}

impl<T> From<Option<T>> for Value
where
    Value: From<T>,
{
    fn from(value: Option<T>) -> Value {
        value.map_or(Value::Absent, Value::from)
    }
}

/// Which value each type is.
macro_rules! values {
    ($($from:ty: $value:ident,)*) => {
        $(impl From<$from> for Value {
            fn from(value: $from) -> Value {
                Value::$value(value.into())
            }
        })*
    };
}

values! {
    &str: Text,
    String: Text,
    u32: Whole,
    f32: Single,
    f64: Double,
    bool: Truth,
}

impl From<usize> for Value {
    fn from(whole: usize) -> Value {
        Value::Whole(whole as u64)
    }
}

impl Value {
    /// As text, and whether that is a JSON text by itself. No JSON number is NaN or infinite.
    fn plain(&self) -> (String, bool) {
        match self {
            Value::Absent => ("null".into(), true),
            Value::Text(text) => (text.clone(), false),
            Value::Whole(whole) => (whole.to_string(), true),
            Value::Truth(truth) => (truth.to_string(), true),
            Value::Single(single) => float(*single, decimal),
            Value::Double(double) => float(*double, |double| format!("{double:?}")),
        }
    }

    fn csv(&self) -> String {
        match self {
            Value::Absent => String::new(),
            _ => {
                let (text, _) = self.plain();
                if text.contains([',', '"', '\r', '\n']) { crate::text::quoted(&text) } else { text }
            }
        }
    }

    fn json(&self) -> String {
        match self.plain() {
            (text, true) => text,
            (text, false) => string(&text),
        }
    }
}

/// A float's shortest decimal, or its name. A minus zero has a point, or programs read it as a whole number, which has
/// no sign.
fn float<T: Into<f64> + Copy>(figure: T, decimal: impl Fn(T) -> String) -> (String, bool) {
    let wide: f64 = figure.into();
    match (wide.is_nan(), wide.is_infinite(), wide == 0.0 && wide.is_sign_negative()) {
        (true, ..) => ("NaN".into(), false),
        (_, true, _) => (if wide > 0.0 { "Infinity" } else { "-Infinity" }.into(), false),
        (.., true) => ("-0.0".into(), true),
        _ => (decimal(figure), true),
    }
}

/// A JSON string: quotes, backslashes and controls are escaped.
fn string(text: &str) -> String {
    let escaped = |c: char| match c {
        '"' | '\\' => format!("\\{c}"),
        c if c < ' ' => format!("\\u{:04x}", u32::from(c)),
        c => c.to_string(),
    };
    format!("\"{}\"", text.chars().map(escaped).collect::<String>())
}

/// A table whose rows are written as they come. Its fields are the same in every row.
pub struct Table<const N: usize> {
    form: Form,
    fields: [&'static str; N],
    begun: bool,
}

impl<const N: usize> Table<N> {
    pub fn begin(form: Form, fields: [&'static str; N], output: &mut Output) -> Table<N> {
        match form {
            Form::Csv => output.text(&format!("{}\r\n", fields.join(","))),
            Form::Json => output.text("["),
        }
        Table { form, fields, begun: false }
    }

    pub fn row(&mut self, values: [Value; N], output: &mut Output) {
        match self.form {
            Form::Csv => output.text(&format!("{}\r\n", values.each_ref().map(Value::csv).join(","))),
            Form::Json => {
                let members =
                    self.fields.iter().zip(&values).map(|(name, value)| format!("\"{name}\": {}", value.json()));
                let before = if self.begun { "," } else { "" };
                output.text(&format!("{before}\n{{{}}}", members.collect::<Vec<_>>().join(", ")));
            }
        }
        self.begun = true;
    }

    /// Ends it, so that what is written is whole even where the rows break off.
    pub fn end(self, output: &mut Output) {
        if self.form == Form::Json {
            output.text("\n]\n");
        }
    }
}
