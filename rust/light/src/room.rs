//! Rooms: a text table of lamps, and which of them is to blame where a room is refused.

use crate::lamp::{self, Entry, Label};
use crate::text::{Stop, Wrong, called, counted, line_of};
use light_tree::{Block, Lamp, LightTree, Refusal, bounds_block, lamp_list};

pub struct Room {
    /// What the room is called in messages.
    pub name: String,
    lamps: Vec<Lamp>,
    labels: Vec<Label>,
}

/// What each line that is not empty says, in their order.
pub fn lines(text: &[u8]) -> impl Iterator<Item = (usize, Result<(Label, Lamp), Wrong>)> {
    let read = |(line, bytes)| {
        let lamp = line_of(bytes).and_then(|text| lamp::read(line, text));
        lamp.transpose().map(|lamp| (line, lamp))
    };
    (1..).zip(text.split(|byte| *byte == b'\n')).filter_map(read)
}

/// "refused 9: …".
pub fn refused(refusal: Refusal) -> String {
    format!("refused {}: {refusal}", refusal.number())
}

impl Room {
    pub fn read(name: &str, text: &[u8]) -> Result<Room, Stop> {
        let mut room = Room { name: name.into(), lamps: Vec::new(), labels: Vec::new() };
        for (line, lamp) in lines(text) {
            let (label, lamp) = lamp.map_err(|wrong| wrong.in_line(name, line))?;
            room.lamps.push(lamp);
            room.labels.push(label);
        }
        Ok(room)
    }

    /// The lamps in the order of their handles.
    pub fn lamps(&self) -> &[Lamp] {
        &self.lamps
    }

    /// The line of a lamp.
    pub fn line(&self, handle: u32) -> usize {
        self.labels[handle as usize].line
    }

    /// What a lamp is called, where its line says so.
    pub fn name_of(&self, handle: u32) -> Option<&str> {
        self.labels[handle as usize].name.as_deref()
    }

    /// `lamp 3 "by the window"`.
    pub fn called(&self, handle: u32) -> String {
        called(&format!("lamp {handle}"), self.name_of(handle))
    }

    /// The lamp list, in words.
    pub fn list(&self) -> Result<Vec<u32>, Stop> {
        lamp_list(&self.lamps).map_err(|refusal| self.blame_all(refusal))
    }

    pub fn block(&self) -> Result<Block, Stop> {
        bounds_block(&self.lamps).map_err(|refusal| {
            let place = self.lamps.iter().position(|lamp| bounds_block(std::slice::from_ref(lamp)).is_err());
            self.blame(place.filter(|_| refusal != Refusal::Crowded), refusal)
        })
    }

    pub fn tree(&self) -> Result<LightTree, Stop> {
        let block = self.block()?;
        LightTree::from_block(block.words())
            .map_err(|refusal| self.blame(block.records().position(|record| record.validate().is_err()), refusal))
    }

    /// The lamp at a place is at fault, or all together.
    fn blame(&self, place: Option<usize>, refusal: Refusal) -> Stop {
        let Some(handle) = place else { return self.blame_all(refusal) };
        let entry = Entry { handle, label: &self.labels[handle], lamp: &self.lamps[handle] };
        entry.blame(refusal).in_line(&self.name, entry.label.line)
    }

    fn blame_all(&self, refusal: Refusal) -> Stop {
        // not the room's fault
        if refusal == Refusal::NoThread {
            return Stop::Failed(format!("{}: {refusal}", self.name));
        }
        let lamps = counted(self.lamps.len(), "lamp", "lamps");
        Stop::Refused(format!("{}: {}: this room has {lamps}", self.name, refused(refusal)))
    }
}
