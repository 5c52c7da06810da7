//! `light check`: every fault and every warning, with its place.

mod common;

use common::{bad, good, light, temporary, text};

/// What is found in a room, without the lines' common start; and what is said of it all.
#[track_caller]
fn found(status: i32, arguments: &[&str], room: &str) -> (Vec<String>, String) {
    let output = light(&[&["check", "-"], arguments].concat(), room);
    assert_eq!(output.status.code(), Some(status), "{}", text(&output.stdout));
    let lines = text(&output.stdout);
    let lines = lines.lines().map(|line| line.strip_prefix("standard input: ").unwrap_or(line).into()).collect();
    (lines, text(&output.stderr).trim_end().into())
}

/// One fault or warning in the last of these lines.
#[track_caller]
fn one(status: i32, room: &str, start: &str) {
    let (lines, said) = found(status, &[], room);
    let line = format!("line {}, {start}", room.lines().count());
    assert!(lines[0].starts_with(&line), "{room}: {} in place of {line}", lines[0]);
    let lamps = room.lines().count();
    let lamps = format!("{lamps} lamp{}", if lamps == 1 { "" } else { "s" });
    match status {
        0 => assert_eq!((lines.len(), lines[1].as_str()), (2, format!("no fault found, 1 warning: {lamps}").as_str())),
        _ => assert_eq!((lines.len(), said), (1, format!("1 fault, 0 warnings: {lamps}"))),
    }
}

#[test]
fn nothing_found() {
    assert_eq!(good(&["check", "room.txt"], ""), "no fault found: 4 lamps\n");
    assert_eq!(good(&["check", "laboratory.txt", "benches.txt"], ""), "no fault found: 60 lamps, 20 benches\n");
    assert_eq!(good(&["check", "--strict", "laboratory.txt"], ""), "no fault found: 60 lamps\n");
}

/// Every wrong line is told in one run, in its order, the lamps by their places among all.
#[test]
fn every_line() {
    let room = "\u{feff}lamp 1\npoint 1 2 3 1 1\n\n\"x\" point 1 2 3 0,5 1\n\
        spot 1 2 3 0 0 1 1 1 30 20\npoint 1 2 3 1 1\npoint";
    let (lines, said) = found(1, &[], room);
    let starts = [
        "line 1, column 1: 'lamp' is no kind of lamp",
        "line 4, column 17: '0,5' is no number: write 0.5",
        "line 5, column 22: lamp 3, a spot: refused 8: ",
        "line 6, column 7: warning: lamp 4, a point: it is where lamp 1 of line 2 is",
        "line 7, column 6: 0 figures in place of 5",
    ];
    for (line, start) in lines.iter().zip(starts) {
        assert!(line.starts_with(start), "{line}");
    }
    assert_eq!((lines.len(), said.as_str()), (5, "4 faults, 1 warning: 6 lamps"));
}

#[test]
fn what_to_do() {
    let group = |triangle: &str| format!("group 1 1 one | 0 0 0 1 0 0 {triangle}");
    for (room, column, end) in [
        ("point 1 2 0x7fc00000 1 1", 11, "Z is 0x7fc00000: write a finite number"),
        ("point 1 2 3 1 -1", 15, "SCALE is -1: write a finite number from 0 on"),
        ("point 1 2 3 1e30 1e30", 13, "INTENSITY times SCALE is too much: lower one"),
        ("spot 1 2 3 0 0 0 1 1 1 1", 12, "DX DY DZ are 0 0 0: say which way it shines"),
        ("spot 1 2 3 0 0 1 1 1 30 1", 22, "COS_THETA_O is 30: write a cosine, from -1 to 1; 30 degrees is 0.8660254"),
        (
            "spot 1 2 3 0 0 1 1 1 1 -45",
            24,
            "COS_FALLOFF_END is -45: write a cosine, from -1 to 1; -45 degrees is 0.70710677",
        ),
        ("spot 1 2 3 0 0 1 1 1 200 1", 22, "COS_THETA_O is 200: write a cosine, from -1 to 1"),
        ("group 1 1 one", 14, "a triangle belongs here: | AX AY AZ BX BY BZ CX CY CZ AREA NX NY NZ"),
        (&group("0 1 0 0 0 0 1"), 35, "AREA is 0: write one above 0"),
        (&group("0 1 0 1 0 0 0"), 37, "NX NY NZ are 0 0 0: say which way it shines"),
        (&group("2 0 0 1 -"), 37, "NX NY NZ are no numbers, as where corners lie on one line: say which way it shines"),
        (&group("0 1 0x7f800000 1 0 0 1"), 33, "CZ is 0x7f800000: write a finite number"),
    ] {
        one(1, room, &format!("column {column}: lamp 0, a "));
        let (lines, _) = found(1, &[], room);
        assert!(lines[0].ends_with(&format!(": {end}")), "{}", lines[0]);
        // the same words in every other command
        assert_eq!(bad(1, &["report", "-", "benches.txt"], room), format!("standard input: {}", lines[0]));
    }
    for (word, hint) in [
        ("0,5", ": write 0.5"),
        ("-1,25e2", ": write -1.25e2"),
        ("3,183", ": write 3.183, or 3183 if thousands are meant"),
        ("3,", ": write 3 without the comma"),
        ("\u{2212}3", ": write -3"),
        ("3m", ""),
        ("1,2,3", ""),
        ("inf,", ""),
    ] {
        one(1, &format!("point {word} 2 3 1 1"), &format!("column 7: '{word}' is no number{hint}"));
        assert!(bad(1, &["block", "-"], &format!("point {word} 2 3 1 1")).ends_with(&format!("is no number{hint}")));
    }
}

#[test]
fn warnings() {
    let group = |figures: &str| format!("group 1 1 one | 0 0 0 2 0 0 0 3 0 {figures}");
    for good in ["3 0 0 1", "3.002 0 0 -7", "2.998 0.0009 0 1", "- -", "- 0 0 1", "3 -"] {
        assert_eq!(found(0, &["--strict"], &group(good)).0, ["no fault found: 1 lamp"], "{good}");
    }
    one(0, &group("3.004 0 0 1"), "column 35: warning: lamp 0, a group: triangle 1: AREA is 3.004, its corners make 3");
    one(
        0,
        &group("3 0.002 0 1"),
        "column 37: warning: lamp 0, a group: triangle 1: NX NY NZ are 0.002 0 1, its corners make 0 0 1",
    );
    one(
        0,
        &group("- 1 0 0"),
        "column 37: warning: lamp 0, a group: triangle 1: NX NY NZ are 1 0 0, its corners make 0 0 1",
    );
    one(
        0,
        "group 1 1 one | 0 0 0 1 0 0 2 0 0 1 0 0 1",
        "column 35: warning: lamp 0, a group: triangle 1: AREA is 1, its corners make 0",
    );
    let swapped = "column 22: warning: lamp 0 \"vice\", a spot: COS_FALLOFF_END is above COS_THETA_O";
    one(0, "\"vice\" spot 1 2 3 0 0 1 1 1 0.8 0.9", &swapped.replace("column 22", "column 29"));
    assert_eq!(found(0, &["--strict"], "spot 1 2 3 0 0 1 1 1 0.8 0.8").0, ["no fault found: 1 lamp"]);
    one(
        0,
        "point 0 2 3 1 1\nspot -0 2 3 0 0 1 1 1 0.9 0.8",
        "column 6: warning: lamp 1, a spot: it is where lamp 0 of line 1 is",
    );
    let twice = format!("{}\n{}", group("3 0 0 1"), group("- -"));
    one(0, &twice, "column 7: warning: lamp 1, a group: it is where lamp 0 of line 1 is");
    let nobody = "warning: there is no lamp in this room";
    assert_eq!(found(0, &[], "# nobody\n").0, [nobody, "no fault found, 1 warning: 0 lamps"]);
    assert_eq!(found(1, &["--strict"], ""), (vec![nobody.into()], "0 faults, 1 warning: 0 lamps".into()));
    assert!(found(0, &[], "point 1 2 3 0 1").0[0].starts_with("warning: no lamp has power"));
}

/// What only the lamps together are refused for.
#[test]
fn together() {
    let huge: String = (0..3).map(|x| format!("point {x} 0 0 2.387e37 1\n")).collect();
    let (lines, said) = found(1, &[], &huge);
    assert!(lines.len() == 1 && lines[0].starts_with("refused 10: "), "{lines:?}");
    assert_eq!(said, "1 fault, 0 warnings: 3 lamps");
    let crowd: String = (0..4097).map(|x| format!("point {x} 0 0 1 1\n")).collect();
    let (lines, _) = found(1, &[], &crowd);
    assert!(lines.len() == 1 && lines[0].starts_with("refused 2: "), "{lines:?}");
}

#[test]
fn benches() {
    let path = temporary("check");
    let benches = "\u{feff}1 0 1 - 0.5\n1 0 1\n\"x\" 1 0 1 - 2\n0x7fc00000 0 1 - 0\n1 0 1 - 0,5\n";
    std::fs::write(&path, benches).unwrap();
    let path_text = path.to_str().unwrap();
    let (lines, said) = found(1, &[path_text], "point 0 0 0 1 1\npoint 2 0 0 1 1");
    let ends = [
        "line 2, column 6: 0 figures in place of 3: NX NY NZ, or - for none",
        "line 3, column 13: bench \"x\": refused 11: u is not a number from 0 to 1",
        "line 4, column 1: bench: refused 5: ",
        "line 5, column 9: '0,5' is no number: write 0.5",
    ];
    for (line, end) in lines.iter().zip(ends) {
        assert!(line.starts_with(&format!("{path_text}: {end}")), "{line}");
    }
    assert_eq!((lines.len(), said.as_str()), (4, "4 faults, 0 warnings: 2 lamps, 5 benches"));
    // with no room to try them in, a bench's text and its u
    assert_eq!(found(1, &[path_text], "x").1, "4 faults, 0 warnings: 1 lamp, 5 benches");
    std::fs::write(&path, "# none\n").unwrap();
    let (lines, _) = found(0, &[path_text], "point 0 0 0 1 1");
    assert_eq!(lines[0], format!("{path_text}: warning: there is no bench in this table"));
    std::fs::remove_file(&path).unwrap();
    assert!(bad(2, &["check", "room.txt", "nowhere.txt"], "").starts_with("nowhere.txt: "));
    assert_eq!(bad(2, &["check", "-", "-"], ""), "standard input is either the room or the benches");
}

/// Area and normal from corners are those that these steps give, written out here by hand.
#[test]
fn left_to_the_corners() {
    let given = "group 5 1 two | 0 0 0 1 0 0 0 1 0 0.5 0 0 1 | 0 0 1 0 2 1 3 0 1 3 0 0 -1";
    let left = "group 5 1 two | 0 0 0 1 0 0 0 1 0 - - | 0 0 1 0 2 1 3 0 1 - -";
    let list = |room: &str| light(&["list", "-"], room).stdout;
    // -0 + 0 in the cross product
    assert_eq!(good(&["block", "-"], left), good(&["block", "-"], given));
    let corners: [[f32; 3]; 3] = [[0.1, 0.7, 0.3], [1.1, 0.9, -0.4], [0.2, 2.3, 0.6]];
    let words: Vec<f32> = list(&format!(
        "group 5 1 two | {} - -",
        corners.as_flattened().iter().map(f32::to_string).collect::<Vec<_>>().join(" ")
    ))
    .as_chunks()
    .0
    .iter()
    .map(|bytes| f32::from_le_bytes(*bytes))
    .collect();
    let [a, b, c] = corners;
    let (e, f) = ([b[0] - a[0], b[1] - a[1], b[2] - a[2]], [c[0] - a[0], c[1] - a[1], c[2] - a[2]]);
    let v = [e[1] * f[2] - e[2] * f[1], e[2] * f[0] - e[0] * f[2], e[0] * f[1] - e[1] * f[0]];
    let length = (v[0] * v[0] + v[1] * v[1] + v[2] * v[2]).sqrt();
    let reciprocal = 1.0 / length;
    assert_eq!(words[words.len() - 4..], [0.5 * length, v[0] * reciprocal, v[1] * reciprocal, v[2] * reciprocal]);
}
