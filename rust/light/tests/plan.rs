//! The page of `light plan`: that it is well-formed, says what the report says, and that its runs are the draws'.

mod common;

use common::{bad, good, light, temporary, text};
use light::bench::Place;
use light::plan::runs::{End, Runs};
use light_tree::{Lamp, LightTree};
use std::time::{Duration, Instant};

// ---- well-formed

/// What is wrong with a page as XML, if anything: tags that do not close, attributes without quotes or given twice,
/// unknown entities, characters that XML cannot hold. A page has neither comments nor instructions.
fn fault(page: &str) -> Option<String> {
    let Some(mut rest) = page.strip_prefix("<!DOCTYPE html>\n") else { return Some("no doctype".into()) };
    let mut open: Vec<&str> = Vec::new();
    while let Some((before, behind)) = rest.split_once('<') {
        if let Some(wrong) = wrong_text(before) {
            return Some(format!("text {wrong:?}"));
        }
        let Some((tag, behind)) = behind.split_once('>') else { return Some(format!("<{behind}")) };
        rest = behind;
        if let Some(name) = tag.strip_prefix('/') {
            if open.pop() != Some(name) {
                return Some(format!("</{name}> closes {open:?}"));
            }
            continue;
        }
        let (tag, is_whole) = tag.strip_suffix('/').map_or((tag, false), |tag| (tag, true));
        let (name, attributes) = tag.split_once(' ').unwrap_or((tag, ""));
        if name.is_empty() || !name.bytes().all(|c| c.is_ascii_alphanumeric()) || !are_attributes(attributes) {
            return Some(format!("<{tag}>"));
        }
        if !is_whole {
            open.push(name);
        }
    }
    (!open.is_empty() || !rest.trim().is_empty()).then(|| format!("{open:?} stay open"))
}

fn wrong_text(text: &str) -> Option<String> {
    let entities = ["&amp;", "&lt;", "&gt;", "&quot;", "&#39;"];
    let is_known = |at: usize| entities.iter().any(|entity| text[at..].starts_with(entity));
    let unknown = text.match_indices('&').find(|(at, _)| !is_known(*at));
    let control = text.chars().find(|c| c.is_control() && *c != '\n');
    unknown.map(|(at, _)| text[at..].chars().take(20).collect()).or(control.map(String::from))
}

/// ` name="value"` again and again, no name twice.
fn are_attributes(text: &str) -> bool {
    let mut names = Vec::new();
    let mut rest = text.trim_start();
    while !rest.is_empty() {
        let Some((name, behind)) = rest.split_once("=\"") else { return false };
        let Some((value, behind)) = behind.split_once('"') else { return false };
        let is_name = !name.is_empty() && name.bytes().all(|c| c.is_ascii_alphanumeric() || c == b'-');
        let is_apart = behind.is_empty() || behind.starts_with(' ');
        if !is_name || names.contains(&name) || wrong_text(value).is_some() || !is_apart {
            return false;
        }
        names.push(name);
        rest = behind.trim_start();
    }
    true
}

/// The page of a room and its benches, well-formed.
#[track_caller]
fn page(room: &str, benches: &str) -> String {
    let path = temporary(&format!("benches-{:?}", std::thread::current().id()));
    std::fs::write(&path, benches).unwrap();
    let page = good(&["plan", "-", path.to_str().unwrap()], room);
    std::fs::remove_file(path).unwrap();
    assert_eq!(fault(&page), None);
    page
}

#[test]
fn the_checker_sees_faults() {
    let doctype = |body: &str| format!("<!DOCTYPE html>\n{body}\n");
    assert_eq!(fault(&doctype("<p class=\"a\">1 &lt; 2<br/></p>")), None);
    for body in [
        "<p>",
        "<p></b>",
        "<p a=1></p>",
        "<p>a & b</p>",
        "<p>&nbsp;</p>",
        "<p a=\"1\" a=\"2\"></p>",
        "<p>\u{1}</p>",
        "<p/>x",
        "<p/><",
    ] {
        assert!(fault(&doctype(body)).is_some(), "{body}");
    }
}

// ---- the laboratory

/// What stands between two words, each time.
fn between<'a>(text: &'a str, from: &str, to: &str) -> Vec<&'a str> {
    text.split(from).skip(1).map(|behind| behind.split(to).next().unwrap_or_default()).collect()
}

/// The section of a bench by its line.
#[track_caller]
fn section<'a>(page: &'a str, line: &str) -> &'a str {
    between(page, &format!("<section id=\"b{line}\">"), "</section>")[0]
}

fn laboratory() -> String {
    let page = good(&["plan", "laboratory.txt", "benches.txt"], "");
    assert_eq!(fault(&page), None);
    page
}

/// Each bench has a section with the two columns of the report, bit for bit.
#[test]
fn columns_are_the_reports() {
    let page = laboratory();
    let report = good(&["report", "laboratory.txt", "benches.txt"], "");
    let rows: Vec<Vec<&str>> =
        report.lines().filter(|line| !line.starts_with('#')).map(|line| line.split_whitespace().collect()).collect();
    assert_eq!((rows.len(), page.matches("<section ").count()), (20, 20));
    for row in rows {
        let [line, lamp, at, drawn, named, drawn_bits, named_bits, apart, ..] = row[..] else { panic!("{row:?}") };
        let section = section(&page, line);
        assert!(section.contains(&format!("Looks at <b>lamp {lamp}</b>, a ")), "bench {line}");
        assert!(section.contains(&format!(" in line {at}, with chance <b>")), "bench {line}");
        for (figure, bits) in [(drawn, drawn_bits), (named, named_bits)] {
            assert!(section.contains(&format!("<td>{figure}</td><td class=\"m\">{bits}</td>")), "bench {line}");
        }
        let floats = match apart {
            "0" => "Both are the same float.".into(),
            "1" => "1 float apart".into(),
            more => format!("{more} floats apart"),
        };
        assert!(section.contains(&format!("<b>{floats}</b>")), "bench {line}: {floats}");
    }
}

/// The runs of each bar, one behind the other, are as wide as the bar.
#[test]
fn runs_fill_the_bar() {
    for section in between(&laboratory(), "<section ", "</section>") {
        let mut end = 0.0;
        for rect in section.split("<rect ").filter(|rect| rect.contains("class=\"run\"")) {
            let number = |name: &str| between(rect, &format!("{name}=\""), "\"")[0].parse::<f64>().unwrap();
            assert!((number("x") - end).abs() < 0.02, "a gap before {rect}");
            end = number("x") + number("width");
        }
        assert!((end - 960.0).abs() < 0.02, "the bar ends at {end}");
    }
}

/// The figures that the tree's mock was made of.
#[test]
fn a_bench_of_none() {
    let page = good(&["plan", "laboratory.txt", "benches.txt", "--bench", "20"], "");
    assert_eq!(fault(&page), None);
    assert_eq!((page.matches("<section ").count(), page.contains("id=\"index\"")), (1, false));
    assert!(page.contains("Each u from 0.2288 to 0.4804 draws it. 30.0 % of all u draw none: "));
    assert!(page.contains("<td>▸ 54</td>"));
}

/// Each lamp is shaded by its chance: the fill of its mark is that of its step, on the plan and in the heights.
#[test]
fn lamps_are_shaded_by_chance() {
    let fills = ["#ecf1f8", "#b9cee8", "#83abd9", "#4d88c4", "#2264a4", "#0f3f75"];
    let steps = [0.0, 0.001, 0.01, 0.03, 0.1, 0.3];
    let page = laboratory();
    let mut shaded = 0;
    for drawing in between(&page, "class=\"plan\"", "</svg>") {
        for lamp in between(drawing, "<g data-l=", "</g>") {
            let chance = between(lamp, ": chance ", " (").first().and_then(|chance| chance.parse::<f32>().ok());
            let Some(chance) = chance else {
                assert!(lamp.contains("stroke-dasharray"), "{lamp}");
                continue;
            };
            let step = steps.iter().rposition(|from| chance >= *from).unwrap();
            assert!(lamp.contains(&format!("fill=\"{}\"", fills[step])), "{lamp}");
            shaded += 1;
        }
    }
    // each bench has some 36 lamps with a chance, drawn twice
    assert!(shaded > 20 * 2 * 30, "{shaded}");
}

/// The tree's way: the shares of the sides taken multiply to the chance of the lamp drawn.
#[test]
fn shares_of_the_way_make_the_chance() {
    let mut numbers = Numbers(3);
    let points = (0..100).map(|_| numbers.point(20.0));
    let lamps: String = points.map(|[x, y, z]| format!("point {x} {y} {z} 5 1\n")).collect();
    let page = page(&lamps, "9 9 1 - 0.1\n9 9 1 - 0.5\n3 3 3 - 0.9\n");
    for section in between(&page, "<section ", "</section>") {
        let taken = between(section, "<title>", "</title>").into_iter().filter(|title| title.ends_with("; taken"));
        let share = |title: &str| title.split([' ', ':']).nth(1).and_then(|share| share.parse::<f64>().ok()).unwrap();
        let product: f64 = taken.map(share).product();
        let chance: f64 = between(section, "drawn, on the way down</th><td>", "<")[0].parse().unwrap();
        assert!((product / chance - 1.0).abs() < 1e-5, "{product} is not {chance}");
    }
}

/// A panel of two triangles is drawn by its outline: four corners, and no line between the triangles.
#[test]
fn panels_by_their_outline() {
    let page = page(
        "group 9 1 one | 0 0 3  4 0 3  4 2 3  4  0 0 -1 | 0 0 3  4 2 3  0 2 3  4  0 0 -1\npoint 9 5 2 1 1\n",
        "5 3 1 0 0 1 0.5\n",
    );
    let panel = between(&page, "<g data-l=\"0\">", "</g>")[0];
    let way = between(panel, " d=\"", "\"")[0];
    assert_eq!((way.matches('M').count(), way.matches('L').count(), way.matches('Z').count()), (1, 3, 1), "{way}");
}

// ---- odd rooms and benches

#[test]
fn names_are_escaped() {
    let lamps = "\"<b>&amp;'\"\"\" point 1 2 3 4 5\n\"]]>\" spot 3 2 3 0 0 -1 9 1 0.9 0.8\n";
    let page = page(lamps, "\"</h2><script>\" 1 1 1 0 0 1 0.5");
    assert!(page.contains("lamp 0 “&lt;b&gt;&amp;amp;&#39;&quot;”") && !page.contains("<b>&amp;amp;"));
    assert!(page.contains("“&lt;/h2&gt;&lt;script&gt;”") && page.matches("<script>").count() == 1);
}

/// Nothing is fetched: neither a file nor an address is named but the two that name the kinds of elements.
#[test]
fn needs_no_network() {
    let page = laboratory();
    let addresses = between(&page, "http", "\"");
    let kinds = ["://www.w3.org/2000/svg", "://www.w3.org/1999/xhtml"];
    assert!(addresses.iter().all(|rest| kinds.contains(rest)), "{addresses:?}");
    assert!(!page.contains(" src=") && !page.contains("@import") && !page.contains("<link"));
}

#[test]
fn rooms_without_light() {
    let benches = "1 1 1 0 0 1 0.5\n";
    let empty = page("# nothing\n", benches);
    assert!(empty.contains("0 lamps, none with power"));
    assert!(empty.contains("Looks at no lamp: none in this room has power."));
    let dark = page("point 1 2 3 4 0\npoint 2 2 3 4 0\n", benches);
    assert!(dark.contains("Of 2 lamps: 2 without power.") && dark.contains("100 %"));
    let one = page("point 1 2 3 4 1\n", benches);
    assert!(one.contains("with chance <b>100 %</b>") && one.contains("It is the only lamp of the room."));
    assert!(page("point 1 2 3 4 1\n", "# none\n").contains("The table has no bench."));
}

/// A draw of none leaves out the two chances; a refused bench is its heading and the reason.
#[test]
fn none_and_refused() {
    let room = "spot 0 0 1 1 0 0 5 1 0.99 0.98\nspot 0 4 1 -1 0 0 5 1 0.99 0.98\nspot 8 2 3 0 0 1 5 1 0.99 0.98\n";
    let page = page(room, "3 2 0 0 0 1 0.1\n3 2 0 0 0 1 1.5\n0x7fc00000 0 0 - 0.5\n");
    let [one, two, three] = ["1", "2", "3"].map(|line| section(&page, line));
    assert!(one.contains("Looks at no lamp: this u draws none.") && !one.contains("The two chances"));
    assert!(two.contains("refused 11: u is not a number from 0 to 1") && !two.contains("<svg"));
    assert!(three.contains("refused 5: ") && three.contains("not a number"));
    assert!(page.contains("0 draw a lamp, 1 none, 2 refused"));
}

/// Where weights overflow a chance is not a number, and the page says so with its bits.
#[test]
fn chances_that_are_no_numbers() {
    let room = "point 0 0 0 2.5e37 1\npoint 0.5 0 0 2.5e37 1\npoint 1 0 0 1 1\n";
    let page = page(room, "0.25 0 0.3 - 0.25\n");
    assert!(page.contains("a chance that is <b>not a number</b> (bits 7fc00000)"));
    assert!(page.contains("<b>Wholly apart</b>") && page.contains("left not a number"));
}

/// Some u of this bench come to a fork that cannot be weighed for it; the page shows these and the others.
#[test]
fn parts_of_u_that_are_refused() {
    // the bench is in the middle of the box around the first two
    let near = "point -0.5 0 1 1 1\npoint 0.5 0 1 1 1\npoint 3 0 1 1 1\n";
    let page = page(&format!("{near}point 100 0 1 9e4 1\npoint 101 0 1 9e4 1\n"), "0 0 1 - 0.999\n0 0 1 - 0\n");
    let sections = between(&page, "<section ", "</section>");
    let refused = |section: &&str| section.contains("Not answered, refused 7: ");
    let shown = |section: &&str| section.contains(" of all u are refused, since a branch cannot be weighed");
    assert_eq!(sections.iter().filter(|section| refused(section)).count(), 1);
    assert_eq!(sections.iter().filter(|section| shown(section)).count(), 1);
}

#[test]
fn wrong_calls() {
    let absent = bad(1, &["plan", "laboratory.txt", "benches.txt", "--bench", "2"], "");
    assert_eq!(absent, "benches.txt: line 2: there is no bench");
    assert_eq!(bad(1, &["plan", "-", "benches.txt"], "pint"), bad(1, &["report", "-", "benches.txt"], "pint"));
    assert_eq!(bad(1, &["plan", "laboratory.txt", "-"], "1 1"), bad(1, &["report", "laboratory.txt", "-"], "1 1"));
    let absent = bad(1, &["plan", "laboratory.txt", "-", "--bench", "2"], "1 1 1 - 0.5");
    assert_eq!(absent, "standard input: line 2: there is no bench");
    bad(2, &["plan", "-", "-"], "");
    bad(2, &["plan", "laboratory.txt", "benches.txt", "--bench", "x"], "");
    bad(2, &["plan", "laboratory.txt"], "");
    let output = light(&["plan", "laboratory.txt", "-"], "1 1 1 0 0 1 0.5\nx\n");
    assert_eq!((output.status.code(), text(&output.stdout)), (Some(1), String::new()));
}

// ---- the runs

/// Numbers from 0 to 1, of a fixed seed.
struct Numbers(u64);

impl Numbers {
    fn next(&mut self) -> f32 {
        self.0 = self.0.wrapping_mul(6364136223846793005).wrapping_add(1442695040888963407);
        (self.0 >> 40) as f32 / (1 << 24) as f32
    }

    fn point(&mut self, size: f32) -> [f32; 3] {
        [(); 3].map(|()| size * self.next())
    }
}

/// Points and narrow spots that turn to all sides, so that some branches shine nowhere near a bench.
fn room(numbers: &mut Numbers, lamps: usize) -> LightTree {
    let lamp = |at| match at % 4 {
        0 => Lamp::Point { world_position: numbers.point(8.0), intensity_max: 9.0 * numbers.next(), scale: 1.0 },
        _ => Lamp::Spot {
            world_position: numbers.point(8.0),
            direction: numbers.point(2.0).map(|x| x - 1.0),
            intensity_max: 1.0,
            scale: numbers.next(),
            cos_theta_o: 0.97,
            cos_falloff_end: 0.95,
        },
    };
    LightTree::of_lamps(&(0..lamps).map(lamp).collect::<Vec<_>>()).unwrap()
}

fn end(tree: &LightTree, place: Place, u: f32) -> End {
    match tree.sample(place.p, place.n, u) {
        Ok(Some((handle, _))) => End::Lamp(handle),
        Ok(None) => End::None,
        Err(refusal) => End::Refused(refusal),
    }
}

/// The runs cover all u without a gap, the lamps' are those that `run_of` finds, and any u draws what its run says.
#[test]
fn runs_are_the_draws() {
    let mut numbers = Numbers(7);
    let mut none = 0;
    for lamps in 1..60 {
        let tree = room(&mut numbers, lamps);
        let n = if lamps % 3 == 0 { [0.0; 3] } else { numbers.point(2.0).map(|x| x - 1.0) };
        let place = Place { p: numbers.point(8.0), n };
        let runs = Runs::of(&tree, place).unwrap();
        let all = &runs.runs;
        assert_eq!((all[0].first, all[all.len() - 1].last), (0.0, 1.0));
        for pair in all.windows(2) {
            assert_eq!(pair[0].last.to_bits() + 1, pair[1].first.to_bits());
            assert!(pair[0].place < pair[1].place);
        }
        for run in all {
            if let End::Lamp(_) = run.end {
                assert_eq!(tree.run_of(run.last, place.p, place.n).unwrap(), Some((run.first, run.last)));
            }
            none += usize::from(run.end == End::None);
        }
        for _ in 0..200 {
            let u = numbers.next();
            assert_eq!(runs.at(u).unwrap().end, end(&tree, place, u), "{lamps} lamps, u {u}");
        }
        let named: f64 = (0..lamps as u32).map(|handle| f64::from(tree.pmf(place.p, place.n, handle).unwrap())).sum();
        let parts = runs.part(|end| end != End::None);
        assert!((named - parts).abs() < 1e-4, "{lamps} lamps: {named} by name, {parts} by runs");
    }
    assert!(none > 20, "{none} runs of none");
}

/// 4,096 lamps, a bench: asked are three seconds for the whole program.
#[test]
fn many_lamps_in_time() {
    let mut numbers = Numbers(9);
    let mut lamps = String::new();
    for at in 0..4096 {
        let [x, y, z] = numbers.point(60.0);
        lamps += &match at % 2 {
            0 => format!("point {x} {y} {z} 5 1\n"),
            _ => format!("spot {x} {y} {z} 0 {} -1 50 1 0.9 0.8\n", numbers.next()),
        };
    }
    let began = Instant::now();
    let page = page(&lamps, "30 30 1 0 0 1 0.4\n");
    assert!(page.contains("4,096 lamps") && page.contains("The way of this draw, fork by fork"));
    assert!(page.len() < 1_000_000, "{} bytes", page.len());
    assert!(began.elapsed() < Duration::from_secs(3), "{:?}", began.elapsed());
}
