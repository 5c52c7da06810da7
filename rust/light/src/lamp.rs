//! A lamp's line: how it is read, and which of its words is at fault where the lamp is refused.

use crate::room::refused;
use crate::text::{Line, Word, Wrong, called, decimal_or_word, fields, number, numbers};
use crate::triangle;
use light_tree::{Lamp, Refusal, Triangle, bounds_block};

/// What a line says of its lamp beside the lamp itself.
pub struct Label {
    pub line: usize,
    pub name: Option<String>,
    columns: Columns,
}

/// A lamp at its place in a room.
#[derive(Clone, Copy)]
pub struct Entry<'a> {
    pub handle: usize,
    pub label: &'a Label,
    pub lamp: &'a Lamp,
}

/// The columns of a lamp's words. A group's lie in parts, the first one's before any mark.
struct Columns {
    kind: usize,
    parts: Vec<Vec<usize>>,
    end: usize,
}

const POINT: &str = "X Y Z INTENSITY SCALE";
const SPOT: &str = "X Y Z DX DY DZ INTENSITY SCALE COS_THETA_O COS_FALLOFF_END";
const TRIANGLE: &str = "AX AY AZ BX BY BZ CX CY CZ AREA NX NY NZ";
const WITHOUT_NORMAL: &str = "AX AY AZ BX BY BZ CX CY CZ AREA -";

/// The lamp of a line's text, none where it is empty.
pub fn read(line: usize, text: &str) -> Result<Option<(Label, Lamp)>, Wrong> {
    let Line { name, words, end } = match Line::of(text)? {
        empty if empty.is_empty() => return Ok(None),
        line => line,
    };
    let (lamp, columns) = lamp(&words, end)?;
    Ok(Some((Label { line, name, columns }, lamp)))
}

impl Entry<'_> {
    /// `lamp 3 "by the window", a spot`.
    pub fn called(&self) -> String {
        let kind = match self.lamp {
            Lamp::Point { .. } => "point",
            Lamp::Spot { .. } => "spot",
            _ => "group",
        };
        format!("{}, a {kind}", called(&format!("lamp {}", self.handle), self.label.name.as_deref()))
    }

    /// What the proved functions say of this lamp alone.
    pub fn refusal(&self) -> Option<Refusal> {
        let block = bounds_block(std::slice::from_ref(self.lamp));
        block.and_then(|block| block.records().try_for_each(|record| record.validate().map(|_| ()))).err()
    }

    /// Why this lamp is refused: where, and what to do where that can be told.
    pub fn blame(&self, refusal: Refusal) -> Wrong {
        let triangle = self.refused_triangle(refusal);
        let fault = self.fault(refusal, triangle);
        let part = triangle.map_or(String::new(), |at| format!(", at its triangle {}", at + 1));
        let advice = fault.as_ref().map_or(String::new(), |fault| format!(": {}", fault.why));
        let column = fault.as_ref().map_or(self.label.columns.kind, |fault| fault.column);
        Wrong::at(column, format!("{}{part}: {}{advice}", self.called(), refused(refusal)))
    }

    /// The triangle at which a group is refused. Triangles are judged one by one, so the first refused front part of
    /// them ends with it.
    fn refused_triangle(&self, refusal: Refusal) -> Option<usize> {
        let Lamp::Group { triangles, emission_max, scale, two_sided } = self.lamp else { return None };
        // what is out of range is the group's own, and some groups only build refuses
        let whole = std::slice::from_ref(self.lamp);
        if triangles.is_empty() || refusal == Refusal::OutOfRange || bounds_block(whole).is_ok() {
            return None;
        }
        let is_refused = |count: usize| {
            let (triangles, emission_max, scale, two_sided) =
                (triangles[..count].to_vec(), *emission_max, *scale, *two_sided);
            bounds_block(&[Lamp::Group { triangles, emission_max, scale, two_sided }]).is_err()
        };
        let (mut good, mut bad) = (0, triangles.len());
        while bad - good > 1 {
            let middle = good.midpoint(bad);
            if is_refused(middle) {
                bad = middle;
            } else {
                good = middle;
            }
        }
        Some(bad - 1)
    }

    /// The word at fault and what to say of it, where that can be told.
    fn fault(&self, refusal: Refusal, triangle: Option<usize>) -> Option<Wrong> {
        let (part, names, figures) = match (self.lamp, triangle) {
            (Lamp::Point { world_position: [x, y, z], intensity_max, scale }, _) => {
                (0, POINT, vec![*x, *y, *z, *intensity_max, *scale])
            }
            (Lamp::Spot { world_position, direction, intensity_max, scale, cos_theta_o, cos_falloff_end }, _) => {
                let rest = [*intensity_max, *scale, *cos_theta_o, *cos_falloff_end];
                (0, SPOT, [&world_position[..], direction, &rest].concat())
            }
            (Lamp::Group { triangles, .. }, Some(at)) => {
                let Triangle { world_positions, area, geometric_normal } = triangles.get(at)?;
                (at + 1, TRIANGLE, [world_positions.as_flattened(), &[*area], geometric_normal].concat())
            }
            (Lamp::Group { triangles, .. }, None) if triangles.is_empty() && refusal == Refusal::NoArea => {
                return Some(Wrong::at(self.label.columns.end, format!("a triangle belongs here: | {TRIANGLE}")));
            }
            (Lamp::Group { emission_max, scale, .. }, None) => (0, "EMISSION SCALE", vec![*emission_max, *scale]),
            _ => return None,
        };
        let names: Vec<&str> = names.split(' ').collect();
        fault(refusal, &names, &figures).map(|(at, why)| Wrong::at(self.column(part, at), why))
    }

    /// The column of a word of a part; of its last where it has no such word.
    pub fn column(&self, part: usize, word: usize) -> usize {
        let Columns { kind, parts, .. } = &self.label.columns;
        parts.get(part).and_then(|part| part.get(word).or(part.last())).copied().unwrap_or(*kind)
    }
}

/// Which of the figures under these names is at fault, and what to say of it.
fn fault(refusal: Refusal, names: &[&str], figures: &[f32]) -> Option<(usize, String)> {
    let place = |name: &str| names.iter().position(|other| *other == name);
    let told = |at: usize| format!("{} is {}", names[at], decimal_or_word(figures[at]));
    match refusal {
        Refusal::NotFinite => match figures.iter().position(|figure| !figure.is_finite()) {
            Some(at) => Some((at, format!("{}: write a finite number", told(at)))),
            None => place("SCALE").map(|at| (at - 1, format!("{} times SCALE is too much: lower one", names[at - 1]))),
        },
        Refusal::NoDirection => {
            let at = place("DX").or(place("NX"))?;
            let told = match &figures[at..at + 3] {
                figures if figures.iter().all(|figure| figure.is_nan()) => {
                    "no numbers, as where corners lie on one line".into()
                }
                figures => figures.iter().copied().map(decimal_or_word).collect::<Vec<_>>().join(" "),
            };
            Some((at, format!("{} are {told}: say which way it shines", names[at..at + 3].join(" "))))
        }
        Refusal::NoArea => place("AREA").map(|at| (at, format!("{}: write one above 0", told(at)))),
        Refusal::OutOfRange => {
            let at = (0..names.len()).find(|at| is_out_of_range(names[*at], figures[*at]))?;
            Some((at, format!("{}: {}", told(at), range(names[at], figures[at]))))
        }
        _ => None,
    }
}

fn is_out_of_range(name: &str, figure: f32) -> bool {
    match name {
        "INTENSITY" | "EMISSION" | "SCALE" => !(figure.is_finite() && figure >= 0.0),
        _ => name.starts_with("COS_") && !(-1.0..=1.0).contains(&figure),
    }
}

/// The range that a figure is out of, and what a cosine that is none may have been meant for.
fn range(name: &str, figure: f32) -> String {
    if !name.starts_with("COS_") {
        return "write a finite number from 0 on".into();
    }
    let degrees = match figure.abs() {
        0.0..=180.0 => {
            let cosine = f64::from(figure).to_radians().cos() as f32;
            format!("; {} degrees is {}", decimal_or_word(figure), decimal_or_word(cosine))
        }
        _ => String::new(),
    };
    format!("write a cosine, from -1 to 1{degrees}")
}

/// The lamp of a line's words, and where they stand.
fn lamp(words: &[Word], end: usize) -> Result<(Lamp, Columns), Wrong> {
    let Some((kind, rest)) = words.split_first() else {
        return Err(Wrong::at(end, "a name alone: point, spot or group belongs behind it"));
    };
    let parts: Vec<&[Word]> = rest.split(|word| word.text == "|").collect();
    // where each part ends: at the mark that follows, or with the line
    let ends: Vec<usize> = rest.iter().filter(|word| word.text == "|").map(|word| word.column).chain([end]).collect();
    let (first, first_end) = (parts[0], ends[0]);
    let lamp = match kind.text {
        "point" => {
            let [x, y, z, intensity_max, scale] = numbers(first, first_end, POINT)?;
            Lamp::Point { world_position: [x, y, z], intensity_max, scale }
        }
        "spot" => {
            let [x, y, z, dx, dy, dz, intensity_max, scale, cos_theta_o, cos_falloff_end] =
                numbers(first, first_end, SPOT)?;
            let (world_position, direction) = ([x, y, z], [dx, dy, dz]);
            Lamp::Spot { world_position, direction, intensity_max, scale, cos_theta_o, cos_falloff_end }
        }
        "group" => group(first, first_end, parts[1..].iter().copied().zip(ends[1..].iter().copied()))?,
        other => {
            return Err(Wrong::at(kind.column, format!("'{other}' is no kind of lamp, as point, spot and group are")));
        }
    };
    if parts.len() > 1 && kind.text != "group" {
        return Err(Wrong::at(first_end, "only a group has parts"));
    }
    let columns = |part: &&[Word]| part.iter().map(|word| word.column).collect();
    Ok((lamp, Columns { kind: kind.column, parts: parts.iter().map(columns).collect(), end }))
}

fn group<'a, 'b: 'a>(
    first: &[Word],
    end: usize,
    parts: impl Iterator<Item = (&'a [Word<'b>], usize)>,
) -> Result<Lamp, Wrong> {
    let [emission, scale, side] = fields(first, end, "EMISSION SCALE one|two")?;
    let [emission_max, scale] = [number(emission)?, number(scale)?];
    let two_sided = match side.text {
        "one" => false,
        "two" => true,
        other => return Err(Wrong::at(side.column, format!("'{other}' is neither one nor two"))),
    };
    let triangles = parts.map(|(words, end)| triangle_of(words, end)).collect::<Result<_, Wrong>>()?;
    Ok(Lamp::Group { triangles, emission_max, scale, two_sided })
}

/// A triangle, of which the area, the normal or both may be left to its corners.
fn triangle_of(words: &[Word], end: usize) -> Result<Triangle, Wrong> {
    let is_left = |at: usize| words.get(at).is_some_and(|word| word.text == "-");
    let (names, normal) = if is_left(10) { (WITHOUT_NORMAL, 1) } else { (TRIANGLE, 3) };
    if words.len() != 10 + normal {
        return Err(crate::text::miscounted(words, 10 + normal, end, names));
    }
    let corners: [f32; 9] = numbers(&words[..9], end, names)?;
    let world_positions = [[0, 1, 2], [3, 4, 5], [6, 7, 8]].map(|corner| corner.map(|at| corners[at]));
    let (area, geometric_normal) = triangle::measured(world_positions);
    Ok(Triangle {
        world_positions,
        area: if is_left(9) { area } else { number(words[9])? },
        geometric_normal: if normal == 1 { geometric_normal } else { numbers(&words[10..], end, names)? },
    })
}
