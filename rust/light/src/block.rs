//! `light block`: the lamps' bounds.

use crate::options::Options;
use crate::output::Output;
use crate::room::Room;
use crate::source::room;
use crate::table::{Form, Table, Value};
use crate::text::{Stop, decimal_or_word, quoted};
use light_tree::LightBounds;

/// The figures of a lamp's bounds.
const FIGURES: [&str; 12] = [
    "min_x",
    "min_y",
    "min_z",
    "max_x",
    "max_y",
    "max_z",
    "direction_x",
    "direction_y",
    "direction_z",
    "phi",
    "cos_theta_o",
    "cos_theta_e",
];

/// `light block ROOM`.
pub fn block(options: &Options, output: &mut Output) -> Result<(), Stop> {
    let [path] = options.arguments();
    let form = Form::of(options)?;
    let room = room(path)?;
    match form {
        None => text(&room, output),
        Some(form) => table(&room, form, output),
    }
}

fn figures(record: &LightBounds) -> [f32; FIGURES.len()] {
    let LightBounds { bounds, direction: [dx, dy, dz], phi, cos_theta_o, cos_theta_e, .. } = *record;
    let ([ax, ay, az], [bx, by, bz]) = (bounds.min, bounds.max);
    [ax, ay, az, bx, by, bz, dx, dy, dz, phi, cos_theta_o, cos_theta_e]
}

fn sides(record: &LightBounds) -> &'static str {
    if record.two_sided { "two" } else { "one" }
}

/// For people: names have a column where some lamp has one.
fn text(room: &Room, output: &mut Output) -> Result<(), Stop> {
    let block = room.block()?;
    let named = (0..).zip(room.lamps()).any(|(handle, _)| room.name_of(handle).is_some());
    let name = |text: &str| if named { format!(" {text}") } else { String::new() };
    output.line(&format!("# handle {} sides{}", FIGURES.join(" "), name("name")));
    for (handle, record) in (0..).zip(block.records()) {
        let name = name(&room.name_of(handle).map_or("-".into(), quoted));
        output.line(&format!("{handle} {} {}{name}", figures(&record).map(decimal_or_word).join(" "), sides(&record)));
    }
    Ok(())
}

/// For programs.
fn table(room: &Room, form: Form, output: &mut Output) -> Result<(), Stop> {
    let block = room.block()?;
    let fields: [&str; 3 + FIGURES.len() + 1] = std::array::from_fn(|at| match at {
        0..3 => ["handle", "name", "line"][at],
        _ => FIGURES.get(at - 3).copied().unwrap_or("sides"),
    });
    let mut table = Table::begin(form, fields, output);
    for (handle, record) in (0..).zip(block.records()) {
        let figures = figures(&record);
        let values = std::array::from_fn(|at| match at {
            0 => handle.into(),
            1 => room.name_of(handle).into(),
            2 => room.line(handle).into(),
            _ => figures.get(at - 3).map_or(sides(&record).into(), |figure| Value::Single(*figure)),
        });
        table.row(values, output);
    }
    table.end(output);
    Ok(())
}
