//! Names of lamps and benches: how they are read, and where they are shown.

mod common;

use common::{bad, good, temporary};

/// A name with a quote, a comment's mark and a part's mark; one of a letter behind a blank and before a tabulator;
/// none.
const NAMED: &str = r###"
"by the ""#"" window | 1" point 0 0 0 1 1 # left
  "a"	point 2 0 0 1 1
point 4 0 0 1 1
"###;
const FIRST: &str = r###""by the ""#"" window | 1""###;

#[test]
fn in_a_block() {
    let table = good(&["block", "-"], NAMED);
    let ends: Vec<&str> = table.lines().skip(1).map(|line| line.split_once(" one ").unwrap().1).collect();
    assert_eq!(ends, [FIRST, r#""a""#, "-"]);
    assert!(table.lines().next().unwrap().ends_with(" sides name"), "{table}");
}

#[test]
fn in_a_report() {
    let path = temporary("named");
    std::fs::write(
        &path,
        "2 0 1 - 0\n\"ü\" 2 0 1 - 0.5\n\"vice\" 2 0 1 - 1\n2 0 1 - 1\n\"far\" 2 0 1 - 2\n2 0 1 - 2\n",
    )
    .unwrap();
    let report = good(&["report", "-", path.to_str().unwrap()], NAMED);
    std::fs::remove_file(path).unwrap();
    // what stands behind the last figure or sentence
    let behind =
        |line: &str| line.find("  lamp").or(line.find("  bench")).map_or(String::new(), |at| line[at..].into());
    let ends: Vec<String> = report.lines().skip(2).take(6).map(behind).collect();
    let [first, second] = [format!("  lamp {FIRST}"), r#"  bench "ü", lamp "a""#.to_string()];
    assert_eq!(ends, [&first, &second, r#"  bench "vice""#, "", r#"  bench "far""#, ""], "{report}");
}

#[test]
fn in_draws() {
    let drawn = good(&["draw", "-", "\"vice\" 2 0 1 -", "0"], NAMED);
    assert!(
        drawn.starts_with("# bench \"vice\"\n#     u ") && drawn.contains(&format!("0  lamp {FIRST}\n")),
        "{drawn}"
    );
}

#[test]
fn in_refusals() {
    let said = bad(1, &["block", "-"], "\"on the wall\" point 0 0 0 -1 1");
    assert!(
        said.starts_with("standard input: line 1, column 27: lamp 0 \"on the wall\", a point: refused 8: "),
        "{said}"
    );
    // of a lamp at the centre of a box that is the bench's place
    let places = ["0 2", "5 2", "4 1", "5 1", "2 2", "0 0"];
    let room: String = places.iter().map(|place| format!("\"at {place}\" point {place} 0 1 1\n")).collect();
    let drawn = good(&["draw", "-", "5 1.5 0 -", "0"], &room);
    assert!(drawn.ends_with("# sum of all named chances: lamp 1 \"at 5 2\" is refused 7\n"), "{drawn}");
}

#[test]
fn wrong_names() {
    for (line, why) in [
        ("\"a point 1 2 3 4 5", "column 1: the name that begins here has no closing quote"),
        (" \"a\"\" point 1 2 3 4 5", "column 2: the name that begins here has no closing quote"),
        ("\"\" point 1 2 3 4 5", "column 1: an empty name: leave it out"),
        ("\"a\"point 1 2 3 4 5", "column 4: a blank belongs behind a name"),
        ("\"üa\tb\" point 1 2 3 4 5", "column 4: a name has no control characters"),
        ("\"a\u{2028}\" point 1 2 3 4 5", "column 3: a name has no control characters"),
        ("\"ä\"", "column 4: a name alone: point, spot or group belongs behind it"),
        ("\"ä\" lamp", "column 5: 'lamp' is no kind of lamp, as point, spot and group are"),
        ("point \"a\" 1 2 3 4", "column 7: '\"a\"' is no number: a name stands first in its line"),
    ] {
        assert_eq!(bad(1, &["block", "-"], line), format!("standard input: line 1, {why}"));
    }
    assert_eq!(bad(1, &["draw", "room.txt", "\"a\"", "0"], ""), "BENCH, column 4: 0 figures in place of 3: X Y Z");
}

/// A byte order mark is no part of the first line.
#[test]
fn byte_order_mark() {
    let room = std::fs::read_to_string(format!("{}/room.txt", common::EXAMPLES)).unwrap();
    assert_eq!(good(&["block", "-"], &format!("\u{feff}{room}")), good(&["block", "room.txt"], ""));
    let benches = std::fs::read_to_string(format!("{}/benches.txt", common::EXAMPLES)).unwrap();
    let report = |benches: &str| good(&["report", "laboratory.txt", "-"], benches);
    assert_eq!(report(&format!("\u{feff}{benches}")), report(&benches));
}
