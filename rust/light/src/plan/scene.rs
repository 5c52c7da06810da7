//! What all drawings of a page share: the room with its marks, how far it reaches, what is said of a lamp.

use crate::bench::Bench;
use crate::plan::extent::Extent;
use crate::plan::marks::{Mark, marks};
use crate::plan::markup::px;
use crate::plan::seen::View;
use crate::plan::words::{figure, kind, percent_of};
use crate::room::Room;
use crate::text::decimal;
use light_tree::{INVALID_INDEX, Lamp, LightTree};

/// Above so many lamps marks are small, and the faint ones are dots.
const MANY: usize = 500;

pub struct Scene<'a> {
    pub room: &'a Room,
    pub tree: &'a LightTree,
    pub marks: Vec<Mark>,
    pub extent: Extent,
    pub has_names: bool,
}

impl Scene<'_> {
    pub fn new<'a>(room: &'a Room, tree: &'a LightTree, benches: &[Bench]) -> Scene<'a> {
        let marks = marks(room.lamps());
        let extent = Extent::of(&marks, benches);
        let has_names = (0..).zip(room.lamps()).any(|(handle, _)| room.name_of(handle).is_some());
        Scene { room, tree, marks, extent, has_names }
    }

    pub fn is_many(&self) -> bool {
        self.marks.len() > MANY
    }

    pub fn has_power(&self, handle: u32) -> bool {
        self.tree.handle_to_leaf().get(handle as usize).is_some_and(|leaf| *leaf != INVALID_INDEX)
    }

    pub fn kind(&self, handle: u32) -> &'static str {
        self.room.lamps().get(handle as usize).map_or("", kind)
    }

    /// How high a lamp hangs: the middle of a panel.
    pub fn height(&self, handle: u32) -> String {
        self.marks.get(handle as usize).map_or(String::new(), |mark| decimal(mark.at[2] as f32))
    }

    /// The same for a narrow column, to a hundredth.
    pub fn short_height(&self, handle: u32) -> String {
        let height = self.marks.get(handle as usize).map_or(0.0, |mark| mark.at[2]);
        if height == 0.0 || (0.01..1e4).contains(&height.abs()) { px(height) } else { format!("{height:.1e}") }
    }

    /// "lamp 45 “by the window”".
    pub fn called(&self, handle: u32) -> String {
        match self.room.name_of(handle) {
            Some(name) => format!("lamp {handle} “{name}”"),
            None => format!("lamp {handle}"),
        }
    }

    /// "lamp 45, spot, line 53, height 2.2: chance 0.25040847 (25.0 %)".
    pub fn title(&self, handle: u32, view: &View) -> String {
        let sides = match self.room.lamps().get(handle as usize) {
            Some(Lamp::Group { two_sided: true, .. }) => ", both sides",
            _ => "",
        };
        let chance = match view.met(handle) {
            Some(met) if met.drawn.is_nan() => format!("chance not a number, bits {:08x}", met.drawn.to_bits()),
            Some(met) => format!("chance {} ({})", figure(met.drawn), percent_of(met.drawn)),
            None if self.has_power(handle) => "no u draws it".into(),
            None => "no power".into(),
        };
        let (line, height) = (self.room.line(handle), self.height(handle));
        format!("{}, {}{sides}, line {line}, height {height}: {chance}", self.called(handle), self.kind(handle))
    }
}
