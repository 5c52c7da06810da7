//! Tables for programs, read by Python's own readers of comma-separated values and JSON.

mod common;

use common::{bad, good, light, temporary, text};
use std::io::{BufRead, BufReader, Read, Write};
use std::process::{Child, ChildStdout, Command, Stdio};
use std::sync::{LazyLock, Mutex};

/// Reads tables from standard input, each behind a line with its form and its length, strictly. Of each it prints the
/// rows, the fields between tabulators and a JSON number as the text that it is, behind a line with their length.
const READER: &str = r#"
import csv, io, json, sys

def comma_separated(text):
    assert text.endswith('\r\n') and text.count('\r') == text.count('\n') == text.count('\r\n'), 'line ends'
    rows = list(csv.reader(io.StringIO(text, newline=''), strict=True))
    assert all(len(row) == len(rows[0]) for row in rows), 'fields'
    return rows

def refuse(word):
    raise ValueError(word)

def array(text):
    rows = json.loads(text, parse_float=str, parse_int=str, parse_constant=refuse)
    assert type(rows) is list
    fields = list(rows[0]) if rows else []
    assert all(list(row) == fields for row in rows), 'fields'
    plain = lambda value: '' if value is None else str(value).lower() if type(value) is bool else value
    return [fields] + [[plain(value) for value in row.values()] for row in rows]

while head := sys.stdin.buffer.readline().split():
    text = sys.stdin.buffer.read(int(head[1])).decode('utf-8')
    try:
        rows = (comma_separated if head[0] == b'csv' else array)(text)
    except Exception as error:
        rows = [['wrong', repr(error)]]
    answer = '\n'.join('\t'.join(row) for row in rows).encode()
    sys.stdout.buffer.write(b'%d\n' % len(answer) + answer)
    sys.stdout.buffer.flush()
"#;

/// One Python for all tests, which takes long to start.
static PYTHON: LazyLock<Mutex<(Child, BufReader<ChildStdout>)>> = LazyLock::new(|| {
    let python = Command::new("python3").args(["-c", READER]).stdin(Stdio::piped()).stdout(Stdio::piped()).spawn();
    let mut python = python.expect("python3 is needed to read the tables");
    let answers = BufReader::new(python.stdout.take().unwrap());
    Mutex::new((python, answers))
});

/// What Python reads of a table: the fields' names and the rows, or `wrong` and why.
fn answered(form: &str, table: &[u8]) -> Vec<Vec<String>> {
    let (python, output) = &mut *PYTHON.lock().unwrap();
    let input = python.stdin.as_mut().unwrap();
    input.write_all(&[format!("{form} {}\n", table.len()).as_bytes(), table].concat()).unwrap();
    let mut length = String::new();
    output.read_line(&mut length).unwrap();
    let mut rows = vec![0; length.trim_end().parse().unwrap()];
    output.read_exact(&mut rows).unwrap();
    text(&rows).split('\n').map(|line| line.split('\t').map(String::from).collect()).collect()
}

#[track_caller]
fn read(form: &str, table: &[u8]) -> Vec<Vec<String>> {
    let rows = answered(form, table);
    assert_ne!(rows[0][0], "wrong", "{rows:?}: {}", text(table));
    rows
}

/// Python takes no table that is not whole or not strict.
#[test]
fn the_reader_is_strict() {
    for (form, table) in [
        ("csv", "a,b\r\n1\r\n"),
        ("csv", "a\n1\n"),
        ("csv", "a\r\n\"1\r\n"),
        ("json", "[{\"a\": NaN}]"),
        ("json", "[{\"a\": 1},]"),
        ("json", "[{\"a\": 1}"),
    ] {
        assert_eq!(answered(form, table.as_bytes())[0][0], "wrong", "{table}");
    }
}

/// The same rows in both forms.
#[track_caller]
fn both(arguments: &[&str], input: &str) -> Vec<Vec<String>> {
    let [csv, json] = ["csv", "json"].map(|form| {
        let option = format!("--{form}");
        read(form, good(&[arguments, &[&option]].concat(), input).as_bytes())
    });
    // a JSON array without rows has no names
    assert!(csv == json || (csv.len() == 1 && json == [[""]]), "{csv:?} {json:?}");
    csv
}

/// A row's field.
#[track_caller]
fn field<'a>(rows: &'a [Vec<String>], row: usize, name: &str) -> &'a str {
    let at = rows[0].iter().position(|field| field == name).unwrap();
    &rows[row + 1][at]
}

const ROOM: &str = "\"a, \"\"b\"\" \\ ü\" point 0 0 0 1 1\npoint 2 0 0 1 1\n";

fn with_benches(name: &str, benches: &str, check: impl FnOnce(&str)) {
    let path = temporary(name);
    std::fs::write(&path, benches).unwrap();
    check(path.to_str().unwrap());
    std::fs::remove_file(path).unwrap();
}

#[test]
fn reports() {
    let rows = both(&["report", "laboratory.txt", "benches.txt"], "");
    assert_eq!(rows.len(), 21);
    // each row is that of the report for people
    let rows_for_people = include_str!("laboratory.report").lines().filter(|line| !line.starts_with('#'));
    for (at, line) in rows_for_people.enumerate() {
        let columns: Vec<&str> = line.split_whitespace().collect();
        let names = ["bench", "lamp", "lamp_line", "drawn", "named", "drawn_bits", "named_bits", "apart"];
        for (name, column) in names.into_iter().zip(&columns) {
            assert_eq!(field(&rows, at, name).trim_start_matches("0x"), *column, "{name} of {line}");
        }
        let float = |name: &str| field(&rows, at, name).parse::<f32>().unwrap().to_bits();
        for (chance, bits) in [("drawn", "drawn_bits"), ("named", "named_bits")] {
            assert_eq!(format!("0x{:08x}", float(chance)), field(&rows, at, bits));
        }
        assert_eq!(format!("{:.7}", field(&rows, at, "sum_of_named").parse::<f64>().unwrap()), columns[8]);
        assert_eq!([field(&rows, at, "status"), field(&rows, at, "parts_wholly")], ["drawn", "false"]);
    }
}

#[test]
fn refused_and_none() {
    let benches = "\"x,\"\"y\" 1 0 1 - 0.25\n1 0 1 - 2\n\"far\" 0x7fc00000 0 1 - 0.5\n1 0 1 0 0 1e30 -0\n";
    with_benches("machine", benches, |path| {
        let rows = both(&["report", "-", path], ROOM);
        let column = |name: &str| (0..4).map(|row| field(&rows, row, name).to_string()).collect::<Vec<_>>();
        assert_eq!(column("bench"), ["1", "2", "3", "4"]);
        assert_eq!(column("bench_name"), ["x,\"y", "", "far", ""]);
        assert_eq!(column("status"), ["drawn", "refused", "refused", "refused"]);
        assert_eq!(column("refusal"), ["", "11", "5", "7"]);
        assert_eq!(column("refusal_text")[1], "u is not a number from 0 to 1");
        assert_eq!(column("lamp_name"), ["a, \"b\" \\ ü", "", "", ""]);
        assert_eq!(column("u"), ["0.25", "2", "0.5", "-0.0"]);
        assert_eq!(column("sum_of_named"), ["1.0", "", "", ""]);
        let unsummed = both(&["report", "--no-sum", "-", path], ROOM);
        assert_eq!((field(&unsummed, 0, "sum_of_named"), field(&unsummed, 0, "drawn")), ("", "0.5"));
        assert_eq!(unsummed[0], rows[0]);
    });
    let none =
        both(&["draw", "-", "1 0 0 -", "1"], "spot 0 0 2  0 0 1  9 1  0.9 0.8\nspot 3 0 2  0 0 1  9 1  0.9 0.8\n");
    assert_eq!(
        ["bench", "status", "lamp", "drawn", "apart"].map(|name| field(&none, 0, name)),
        ["", "none", "", "", ""]
    );
}

/// No number of JSON is NaN or infinite: these are strings there, and the same text in both forms.
#[test]
fn not_finite() {
    let rows = both(
        &["draw", "-", "0 0 0x3a83126f -", "0.5", "0x7fc00000", "0xff800000"],
        "point 0 0 0 2.387e37 1\npoint 2 0 0 1 1\n",
    );
    let names = ["drawn", "named", "drawn_bits", "apart", "parts_wholly", "sum_of_named"];
    assert_eq!(names.map(|name| field(&rows, 0, name)), ["NaN", "0", "0x7fc00000", "", "true", "NaN"]);
    assert_eq!([1, 2].map(|row| field(&rows, row, "u")), ["NaN", "-Infinity"]);
    let triangle = "| 0 0 0 1 0 0 0 1 0 1 0 0 1 ";
    let rows = both(&["block", "-"], &format!("group 1e38 1 two {triangle}{triangle}"));
    assert_eq!([field(&rows, 0, "phi"), field(&rows, 0, "sides")], ["Infinity", "two"]);
}

#[test]
fn blocks_and_draws() {
    let rows = both(&["block", "room.txt"], "");
    let text = good(&["block", "room.txt"], "");
    for (at, line) in text.lines().skip(1).enumerate() {
        let columns: Vec<&str> = rows[at + 1].iter().map(String::as_str).collect();
        assert_eq!(format!("{} {}", columns[0], columns[3..].join(" ")), line);
    }
    assert_eq!(text.lines().count(), rows.len());
    assert_eq!(both(&["block", "-"], "").len(), 1);
    let drawn = both(&["draw", "laboratory.txt", "benches.txt:3", "0.1", "0.2"], "");
    assert_eq!(drawn[1], both(&["report", "laboratory.txt", "benches.txt"], "")[1]);
}

/// A run that breaks off keeps the rows that it had, and the JSON text is whole.
#[test]
fn broken_off() {
    with_benches("broken", "1 0 1 - 0.25\n1 0 1 - x\n", |path| {
        for form in ["csv", "json"] {
            let output = light(&["report", "-", path, &format!("--{form}")], ROOM);
            assert_eq!(output.status.code(), Some(1));
            assert_eq!(text(&output.stderr), format!("{path}: line 2, column 9: 'x' is no number\n"));
            assert_eq!(read(form, &output.stdout).len(), 2);
        }
    });
    let output = light(&["report", "-", "benches.txt", "--json"], "point 0 0 0 -1 1");
    assert_eq!((output.status.code(), output.stdout.len()), (Some(1), 0));
}

#[test]
fn strict() {
    with_benches("strict", "1 0 1 - 0.25\n1 0 1 - 2\n", |path| {
        assert_eq!(bad(1, &["report", "--strict", "-", path], ROOM), "1 of 2 benches refused");
        let loose = good(&["report", "-", path], ROOM);
        assert_eq!(text(&light(&["report", "--strict", "-", path], ROOM).stdout), loose);
    });
    assert_eq!(bad(1, &["draw", "-", "1 0 1 -", "2", "--strict", "--csv"], ROOM), "1 of 1 draw refused");
    good(&["draw", "-", "1 0 1 -", "1", "--strict"], ROOM);
}

#[test]
fn one_form() {
    assert_eq!(
        bad(2, &["report", "--csv", "--json", "room.txt", "benches.txt"], ""),
        "light report: either --csv or --json"
    );
    assert_eq!(bad(2, &["block", "--csv", "--json", "room.txt"], ""), "light block: either --csv or --json");
}

#[test]
fn without_sums() {
    let whole = good(&["report", "laboratory.txt", "benches.txt"], "");
    let part = good(&["report", "--no-sum", "laboratory.txt", "benches.txt"], "");
    for (whole, part) in whole.lines().zip(part.lines()).skip(1).take(21) {
        let (figures, _sum) = whole.rsplit_once("  ").unwrap();
        assert_eq!(part, figures.trim_end_matches("  sum of named"));
    }
    assert_eq!(part.lines().count(), whole.lines().count());
    assert!(!good(&["draw", "--no-sum", "-", "1 0 1 -", "1"], ROOM).contains("sum"));
}
