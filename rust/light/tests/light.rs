//! The program on the examples, on wrong text, and its exit statuses.

mod common;

use common::{EXAMPLES, bad, good, light, temporary, text};
use std::io::Write;
use std::process::{Command, Output, Stdio};

/// A room whose lamps are refused or whose text is wrong: nothing is printed.
#[track_caller]
fn wrong(room: &str, start: &str) {
    for command in [&["block", "-"][..], &["report", "-", "benches.txt"], &["draw", "-", "0 0 0 -", "0.5"]] {
        let output = light(command, room);
        let said = text(&output.stderr);
        assert_eq!(
            (output.status.code(), output.stdout.len(), said.lines().count()),
            (Some(1), 0, 1),
            "{room}: {said}"
        );
        assert!(said.starts_with(&format!("standard input: {start}")), "{room}: {said}");
    }
}

#[test]
fn block() {
    let table = "\
# handle min_x min_y min_z max_x max_y max_z direction_x direction_y direction_z phi cos_theta_o cos_theta_e sides
0 -1.2 0.8 1.9 -1.2 0.8 1.9 0 0 1 37.699112 -1 -4.371139e-08 one
1 1.2 0.8 1.9 1.2 0.8 1.9 0 0 1 18.849556 -1 -4.371139e-08 one
2 0.4 0.3 2.2 0.4 0.3 2.2 0 0 -1 502.65485 0.9063078 0.9848077 one
3 -0.6 -0.2 2.4 0.6 0.2 2.4 0 0 -1 12.063716 1 -4.371139e-08 one
";
    assert_eq!(good(&["block", "room.txt"], ""), table);
    let room = std::fs::read_to_string(format!("{EXAMPLES}/room.txt")).unwrap();
    assert_eq!(good(&["block", "-"], &room), table);
    assert_eq!(good(&["block", "-"], &room.replace('\n', "\r\n")), table);
    assert_eq!(good(&["block", "laboratory.txt"], "").lines().count(), 61);
    assert_eq!(good(&["block", "-"], "# no lamp\n").lines().count(), 1);
}

/// The list of the example room is what the program lamps_to_block is tried on.
#[test]
fn list() {
    let output = light(&["list", "room.txt"], "");
    assert_eq!(
        (output.status.code(), &output.stdout[..]),
        (Some(0), &include_bytes!("../../../crates/lamps_to_block/stdin")[..])
    );
    let output = light(&["list", "-"], "point 0x7fc00000 -0 1e-45 .5 1.");
    let words = [1u32, 1 << 30, 0x7fc0_0000, 1 << 31, 1, 0x3f00_0000, 0x3f80_0000];
    assert_eq!(output.stdout, words.map(u32::to_le_bytes).as_flattened());
}

/// The words for the program columns: the count of lamps, 14 a lamp, and seven a bench.
#[test]
fn columns() {
    let path = temporary("columns");
    std::fs::write(&path, "1 0 1 - 0.5\n# none\n\"x\" 1 2 3 4 5 6 0x3f800001\n").unwrap();
    let words = |room: &str| {
        let output = light(&["columns", "-", path.to_str().unwrap()], room);
        assert_eq!((output.status.code(), output.stdout.len() % 4), (Some(0), 0));
        output.stdout.as_chunks().0.iter().map(|bytes| u32::from_le_bytes(*bytes)).collect::<Vec<_>>()
    };
    let benches = [1f32, 0., 1., 0., 0., 0., 0.5, 1., 2., 3., 4., 5., 6., 1.0000001].map(f32::to_bits);
    assert_eq!(words("")[..], [&[0][..], &benches].concat());
    let pair = words(PAIR);
    assert_eq!((pair[0], pair.len(), &pair[29..]), (2, 1 + 2 * 14 + 14, &benches[..]));
    assert_eq!(words(&"point 0 0 0 1 1\n".repeat(600))[0], 600);
    std::fs::write(&path, "1 0 1 - 0.5\n1 0\n").unwrap();
    assert!(
        bad(1, &["columns", "-", path.to_str().unwrap()], PAIR)
            .ends_with(": line 2, column 4: 2 figures in place of 3: X Y Z")
    );
    std::fs::remove_file(path).unwrap();
    assert_eq!(bad(2, &["columns", "-", "-"], ""), "standard input is either the room or the benches");
}

/// Decimals as they are read and written: the shortest that is the same float, a NaN or an infinity as its word.
#[test]
fn decimals() {
    let row = |x: &str, y: &str, z: &str| {
        let table = good(&["block", "-"], &format!("point {x} {y} {z} 0 0"));
        table.lines().nth(1).unwrap().split(' ').skip(1).take(3).map(String::from).collect::<Vec<_>>()
    };
    assert_eq!(row("0x3f800000", "-0", "1e-45"), ["1", "-0", "1e-45"]);
    assert_eq!(row("+.5", "1.", "1e16"), ["0.5", "1", "1e+16"]);
    assert_eq!(row("1e-4", "0.00001", "123456789"), ["0.0001", "1e-05", "123456790"]);
    assert_eq!(row("3.4028235e38", "0X00800000", "0.1"), ["3.4028235e+38", "1.1754944e-38", "0.1"]);
    let triangle = "| 0 0 0 1 0 0 0 1 0 1 0 0 1 ";
    let table = good(&["block", "-"], &format!("group 1e38 1 two {triangle}{triangle}"));
    assert!(table.contains(" 0x7f800000 ") && table.ends_with(" two\n"), "{table}");
}

#[test]
fn report() {
    let report = good(&["report", "laboratory.txt", "benches.txt"], "");
    assert_eq!(report, include_str!("laboratory.report"));
    let benches = std::fs::read_to_string(format!("{EXAMPLES}/benches.txt")).unwrap();
    assert_eq!(good(&["report", "laboratory.txt", "-"], &benches), report);
    // each row's columns: the line, the lamp and its line, both chances and their bits, how far they part, the sum
    for row in report.lines().filter(|line| !line.starts_with('#')) {
        let columns: Vec<&str> = row.split_whitespace().collect();
        let [_, _, _, drawn, named, drawn_bits, named_bits, apart, sum] = columns[..] else { panic!("{row}") };
        let float = |text: &str| text.parse::<f32>().unwrap();
        let bits = |text: &str| u32::from_str_radix(text, 16).unwrap();
        assert_eq!([drawn, named].map(|text| float(text).to_bits()), [drawn_bits, named_bits].map(bits), "{row}");
        assert_eq!(bits(drawn_bits).abs_diff(bits(named_bits)).to_string(), apart, "{row}");
        assert!((0.0..1.000001).contains(&float(sum)), "{row}");
    }
}

const PAIR: &str = "point 0 0 0 1 1\npoint 2 0 0 1 1\n";

/// A room of two bulbs, on standard input, with benches in a file.
fn pair(name: &str, benches: &[u8]) -> Output {
    let path = temporary(name);
    std::fs::write(&path, benches).unwrap();
    let output = light(&["report", "-", path.to_str().unwrap()], PAIR);
    std::fs::remove_file(path).unwrap();
    output
}

#[test]
fn refused_benches() {
    let benches = "\
1 0 1  -  0.25        # the first
1 0 1  0 0 0  0.75
1 0 1  -  0x3f800001

1 0 1  -  1
0x7fc00000 0 1  -  1
1 0 1  0 0 1e30  0.5
1 0 1  -  0x80000000
";
    let output = pair("refused", benches.as_bytes());
    let expected = "\
# standard input: 2 lamps, 2 of them with power
# bench  lamp  line  drawn          named          bits     bits      apart  sum of named
      1     0     1  0.5            0.5            3f000000 3f000000      0  1.0000000
      2     1     2  0.5            0.5            3f000000 3f000000      0  1.0000000
      3 refused 11: u is not a number from 0 to 1
      5     1     2  0.5            0.5            3f000000 3f000000      0  1.0000000
      6 refused 5: a coordinate or a value of a record is infinite or NaN, such as a power that overflows
      7 refused 7: a direction, normal or way from a box's centre to the point has no length to divide by
      8     0     1  0.5            0.5            3f000000 3f000000      0  1.0000000
# 7 benches: 4 drawn, 0 none, 3 refused
# both chances are the same in every row
";
    assert_eq!((output.status.code(), text(&output.stdout).as_str()), (Some(0), expected));
}

/// Spots that shine away from the bench: none is drawn. And a room without lamps.
#[test]
fn none() {
    let spots = "spot 0 0 2  0 0 1  9 1  0.9 0.8\nspot 3 0 2  0 0 1  9 1  0.9 0.8\n";
    let report = good(&["draw", "-", "1 0 0 -", "0", "1"], spots);
    let row = "   none     -  -              -              -        -             -";
    assert_eq!(report.lines().nth(1), Some(format!("      0 {}", &row[2..]).as_str()));
    assert!(
        report.contains("# 2 draws: 0 drawn, 2 none, 0 refused\n# sum of all named chances: 0.0000000\n"),
        "{report}"
    );
    assert!(good(&["draw", "-", "1 0 0 -", "0"], "").contains("# 1 draw: 0 drawn, 1 none, 0 refused\n"));
}

/// The rows of draws for a bench, with single spaces, and the line that says how far their chances part.
fn rows(room: &str, bench: &str, us: &[&str]) -> (Vec<String>, String) {
    let report = good(&[&["draw", "-", bench][..], us].concat(), room);
    let one_space = |line: &str| line.split_whitespace().collect::<Vec<_>>().join(" ");
    let (rows, said): (Vec<&str>, Vec<&str>) = report.lines().skip(1).partition(|line| !line.starts_with('#'));
    assert_eq!(said.len(), 3, "{report}");
    (rows.into_iter().map(one_space).collect(), said[1].into())
}

/// Where a total of weights is infinite the chances can part wholly: one is NaN, or 0 beside 1.
#[test]
fn wholly() {
    let (near, between) = ("0 0 0x3a83126f -", "1 0 0 -");
    let (huge, one) = ("2.387e37", "1");
    let room = |a: &str, b: &str, x: u32| format!("point 0 0 0 {a} 1\npoint {x} 0 0 {b} 1\n");
    for (room, bench, figures) in [
        (room(huge, one, 2), near, "NaN 0 7fc00000 00000000"),
        (room(huge, huge, 2), between, "1 0 3f800000 00000000"),
        // an infinite weight at the right, and at both
        (room(one, huge, 0), near, "1 NaN 3f800000 7fc00000"),
        (room(huge, huge, 0), near, "NaN NaN 7fc00000 7fc00000"),
    ] {
        let expected = (vec![format!("0.5 1 2 {figures} wholly")], "# 1 row parts wholly, u 0.5".into());
        assert_eq!(rows(&room, bench, &["0.5"]), expected, "{room}");
    }
    let twice = rows(&room(huge, one, 2), near, &["0.25", "1"]);
    assert_eq!(twice.1, "# 2 rows part wholly, first u 0.25");

    // among other benches, by their lines
    let path = temporary("wholly");
    std::fs::write(&path, format!("\n{near} 0.5\n1 0 1 - 0.5\n{near} 1\n")).unwrap();
    let report = good(&["report", "-", path.to_str().unwrap()], &room(huge, one, 2));
    let last: Vec<&str> = report.lines().skip(5).collect();
    let others = "# 2 rows part wholly, first bench 2; in the others both chances are the same";
    assert_eq!(last, ["# 3 benches: 3 drawn, 0 none, 0 refused", others]);
    std::fs::remove_file(path).unwrap();
}

/// A right branch whose share is tiny: the draw's is 1 less the left one's, and by name it is a third less.
#[test]
fn tiny_share() {
    let (rows, parted) = rows("point 0 0 0 1 1\npoint 2 0 0 1.2e-7 1\n", "1 0 1 -", &["0.5", "1"]);
    assert_eq!(rows[0], "0.5 0 1 0.9999998 0.9999998 3f7ffffd 3f7ffffd 0");
    assert_eq!(rows[1], "1 1 2 1.7881393e-07 1.1999998e-07 34400000 3400d958 4138664");
    let expected = "# no row parts wholly; the greatest distance is 4138664 floats (u 1), \
        the greatest relative difference 0.33 (u 1)";
    assert_eq!(parted, expected);
}

/// A bench at the centre of a box of two lamps: some u are refused, others draw, and not every lamp has a chance by
/// name.
#[test]
fn centre_of_a_box() {
    let places = ["0 2", "5 2", "4 1", "5 1", "2 2", "0 0"];
    let room: String = places.iter().map(|place| format!("point {place} 0 1 1\n")).collect();
    let report = good(&["draw", "-", "5 1.5 0 -", "0", "0.5"], &room);
    assert!(report.lines().nth(1).unwrap().starts_with("      0     0     1  0.022139473 "), "{report}");
    assert!(report.lines().nth(2).unwrap().starts_with("    0.5 refused 7: "), "{report}");
    assert!(report.ends_with("# sum of all named chances: lamp 1 is refused 7\n"), "{report}");
}

#[test]
fn draw() {
    let expected = "\
#     u  lamp  line  drawn          named          bits     bits      apart
   0.25     0     1  0.5            0.5            3f000000 3f000000      0
      1     1     2  0.5            0.5            3f000000 3f000000      0
0x3f800001 refused 11: u is not a number from 0 to 1
# 3 draws: 2 drawn, 0 none, 1 refused
# both chances are the same in every row
# sum of all named chances: 1.0000000
";
    assert_eq!(good(&["draw", "-", "1 0 1  -", "0.25", "1", "0x3f800001"], PAIR), expected);
    assert_eq!(good(&["draw", "-", "1 0 1  0 0 0", "0.25", "1", "0x3f800001"], PAIR), expected);
    // the bench of line 3 by its line, by itself, and in the report
    let drawn = good(&["draw", "laboratory.txt", "benches.txt:3", "0.1"], "");
    assert_eq!(drawn, good(&["draw", "laboratory.txt", "0.8 2 0.9 0 0 1", "0.1"], ""));
    let row = &drawn.lines().nth(1).unwrap()[8..];
    assert!(include_str!("laboratory.report").contains(&format!("      3 {row}  ")), "{row}");
    assert_eq!(bad(1, &["draw", "room.txt", "benches.txt:1", "0"], ""), "benches.txt: line 1: there is no bench");
    assert_eq!(bad(1, &["draw", "room.txt", "benches.txt:0", "0"], ""), "benches.txt: line 0: there is no such line");
    assert_eq!(bad(1, &["draw", "room.txt", "benches.txt:99", "0"], ""), "benches.txt: line 99: there is no such line");
    assert_eq!(bad(1, &["draw", "room.txt", "0 0 x -", "0"], ""), "BENCH, column 5: 'x' is no number");
    assert_eq!(
        bad(1, &["draw", "room.txt", "0 0 0 - 1", "0"], ""),
        "BENCH, column 9: 1 figure in place of 0: a bench here has no U"
    );
    assert_eq!(
        bad(1, &["draw", "room.txt", "0 0 0", "0"], ""),
        "BENCH, column 6: 0 figures in place of 3: NX NY NZ, or - for none"
    );
    assert_eq!(bad(1, &["draw", "room.txt", "0 0 0 -", "half"], ""), "U, column 1: 'half' is no number");
    assert!(bad(2, &["draw", "room.txt", "nowhere.txt:1", "0"], "").starts_with("nowhere.txt: "));
    assert_eq!(bad(2, &["draw", "-", "-:1", "0"], ""), "standard input is either the room or the benches");
    assert!(good(&["draw", "room.txt", "-:2", "0"], "\n1 0 1 - 0.5").contains("1 drawn"));
}

#[test]
fn wrong_rooms() {
    for (line, start) in [
        ("point 1 2 3 4", "column 14: 4 figures in place of 5: X Y Z INTENSITY SCALE"),
        ("point 1 2 3 4 # 5", "column 14: 4 figures"),
        ("point 1 2 3 4 5  6 7", "column 18: 7 figures in place of 5"),
        ("point 1 2 3 4 x", "column 15: 'x' is no number"),
        ("  point 1 2 inf 4 5", "column 13: 'inf' is no number"),
        ("point 1 2 NaN 4 5", "column 11: 'NaN' is no number"),
        ("point 1 2 0x3f8 4 5", "column 11: '0x3f8' is no number"),
        ("point 1 2 3 4 1e39", "column 15: '1e39' is past the largest f32"),
        ("point 1 2 3 4 5 | 6", "column 17: only a group has parts"),
        ("lamp", "column 1: 'lamp' is no kind of lamp"),
        ("spot 1 2 3", "column 11: 3 figures in place of 10: X Y Z DX"),
        ("\tüben 1 2 3", "column 2: 'üben' is no kind"),
        ("| 1 2", "column 1: '|' is no kind"),
        ("group 1 1 both", "column 11: 'both' is neither one nor two"),
        ("group 1 1", "column 10: 2 figures in place of 3: EMISSION SCALE one|two"),
        ("group 1 1 one | 1 | 2", "column 19: 1 figure in place of 13: AX AY AZ"),
        ("group 1 1 one |", "column 16: 0 figures in place of 13"),
        ("group 1 1 one|0 0 0 1 0 0 0 1 0 1 0 0 z", "column 39: 'z' is no number"),
    ] {
        wrong(&format!("# a comment\n\n{line}\n"), &format!("line 3, {start}"));
    }
    let output = pair("latin", b"1 0 1 - 0.5\n1 0 \xe4 - 0.5\n");
    assert_eq!(output.status.code(), Some(1));
    assert!(text(&output.stderr).ends_with(": line 2, column 5: no text in UTF-8\n"));
    let output = pair("wide", b"\xff\xfe1\0 \x000\0");
    let said = text(&output.stderr);
    assert!(
        said.ends_with(": line 1, column 1: no text in UTF-8, it seems to be UTF-16: save the file as UTF-8\n"),
        "{said}"
    );
}

#[test]
fn refused_rooms() {
    let triangle = "| 0 0 0 1 0 0 0 1 0 0.5 0 0 1 ";
    let flat = "| 0 0 0 1 0 0 0 1 0 0 0 0 1 ";
    let nine = "refused 9: a triangle's area is not a finite number above 0, or a group has no triangle";
    wrong("point 1 2 3 1 1\n\nspot 1 2 3 0 0 0 1 1 0.5 0.4", "line 3, column 12: lamp 1, a spot: refused 7: ");
    let group = format!("group 1 1 one {triangle}{flat}{triangle}\npoint 0 0 0 -1 1");
    wrong(
        &group,
        &format!("line 1, column 65: lamp 0, a group, at its triangle 2: {nine}: AREA is 0: write one above 0"),
    );
    wrong("point 0 0 0 1 1\npoint 0 0 0 -1 1", "line 2, column 13: lamp 1, a point: refused 8: ");
    wrong("group 1 1 two", &format!("line 1, column 14: lamp 0, a group: {nine}: a triangle belongs here"));
    wrong("point 0x7fc00000 0 0 1 1", "line 1, column 7: lamp 0, a point: refused 5: ");
    let bright = triangle.replace("0.5", "1");
    wrong(
        &format!("group 1e38 1 one {}", bright.repeat(4)),
        "line 1, column 1: lamp 0, a group, at its triangle 3: refused 10: ",
    );
    wrong(
        &"point 0 0 0 1 1\n".repeat(4097),
        "refused 2: over 4,096 lamps (columns: 512), weights or table words, 8,191 nodes, or 2^20 words: \
         this room has 4097 lamps",
    );

    // what only the tree refuses: a group's power that is infinite, by its line; powers that are so together, by the
    // room
    let report = |room: &str| bad(1, &["report", "-", "benches.txt"], room);
    let infinite = format!("point 0 0 0 1 1\ngroup 1e38 1 one {}", bright.repeat(2));
    assert!(report(&infinite).starts_with("standard input: line 2, column 7: lamp 1, a group: refused 5: "));
    let huge: String = (0..3).map(|x| format!("point {x} 0 0 2.387e37 1\n")).collect();
    assert!(report(&huge).starts_with("standard input: refused 10: "));
    assert_eq!(good(&["block", "-"], &infinite).lines().count(), 3);
}

#[test]
fn wrong_benches() {
    for (line, why) in [
        ("1 0 1 - x", "column 9: 'x' is no number"),
        ("1 0 1 -", "column 8: 0 figures in place of 1: U"),
        ("1 0 1 - 0.5 0.6", "column 13: 2 figures in place of 1: U"),
        ("1 0 1", "column 6: 0 figures in place of 3: NX NY NZ, or - for none"),
        ("1 0 1 0 0 - 0.5", "column 11: '-' is no number"),
        ("1 0", "column 4: 2 figures in place of 3: X Y Z"),
    ] {
        let output = pair("wrong", format!("1 0 1 - 0.5\n\n{line} # wrong\n1 0 1 - 0.5\n").as_bytes());
        let said = text(&output.stderr);
        assert!(said.contains(&format!(": line 3, {why}")) && said.lines().count() == 1, "{line}: {said}");
        // the rows before it are there
        assert_eq!((output.status.code(), text(&output.stdout).lines().count()), (Some(1), 3), "{line}");
    }
}

#[test]
fn help_and_statuses() {
    for (arguments, start) in [
        (&["--help"][..], "light: which lamp"),
        (&["-h"], "light: which lamp"),
        (&["block", "--help"], "light block ROOM\n"),
        (&["report", "--help"], "light report ROOM BENCHES\n"),
        (&["report", "nowhere.txt", "-h"], "light report ROOM BENCHES\n"),
        (&["draw", "--help"], "light draw ROOM BENCH U...\n"),
        (&["list", "--help"], "light list ROOM >LIST\n"),
    ] {
        let help = good(arguments, "");
        assert!(help.starts_with(start) && help.lines().all(|line| line.chars().count() <= 100), "{help}");
    }
    for arguments in [&[][..], &["blocks"], &["block"], &["report", "room.txt"], &["draw", "room.txt", "0 0 0 -"]] {
        assert!(bad(2, arguments, "").contains("--help` says more"));
    }
    assert_eq!(bad(2, &["report", "-", "-"], ""), "standard input is either the room or the benches");
    assert!(bad(2, &["block", "nowhere.txt"], "").starts_with("nowhere.txt: "));
    assert_eq!(bad(2, &["block", "."], ""), ".: this is a folder");
}

/// Benches are answered as they come; and who reads no further is not told off.
#[test]
fn streams() {
    for (option, start) in [("--strict", "{:>7} "), ("--csv", "{},"), ("--json", "{\"bench\": {},")] {
        stream(option, start);
    }
}

/// A row begins so, with the bench's line for `{}`.
fn stream(option: &str, start: &str) {
    use std::io::{BufRead, BufReader};
    let mut command = Command::new(env!("CARGO_BIN_EXE_light"));
    command.args(["report", "laboratory.txt", "-", option]).current_dir(EXAMPLES);
    let mut light = command.stdin(Stdio::piped()).stdout(Stdio::piped()).stderr(Stdio::piped()).spawn().unwrap();
    let (mut input, mut output) = (light.stdin.take().unwrap(), BufReader::new(light.stdout.take().unwrap()));
    for number in 1..4 {
        writeln!(input, "1 2 0.9  0 0 1  0.5").unwrap();
        let start = start.replace("{:>7}", &format!("{number:>7}")).replace("{}", &number.to_string());
        // a row of JSON ends when the next one begins
        let mut read = Vec::new();
        while !read.ends_with(start.as_bytes()) {
            assert_ne!(output.read_until(*start.as_bytes().last().unwrap(), &mut read).unwrap(), 0, "{}", text(&read));
        }
    }
    drop(output);
    while writeln!(input, "1 2 0.9  0 0 1  0.5").is_ok() {}
    drop(input);
    let ended = light.wait_with_output().unwrap();
    assert_eq!((ended.status.code(), ended.stderr.len()), (Some(2), 0));
}
