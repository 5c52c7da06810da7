//! What the proved programs read and are to write.

use crate::inputs::random::Random;
use crate::inputs::rooms::Room;
use crate::inputs::walks::bytes;
use crate::parts::{Ended, numbers};
use crate::proved::lamps_build_light_bounds;
use std::io::Write;

/// `columns-input LAMPS GROUPS`: an office's block and groups on its benches and walls, as the program
/// `columns` reads them.
pub fn columns_input(arguments: &[String]) -> Ended {
    let [lamps, groups] = numbers(arguments, 2, [0; 2])?;
    let mut random = Random::new(0);
    let room = Room::new(&mut random, lamps as usize);
    let mut out = std::io::BufWriter::new(std::io::stdout().lock());
    let mut write = |bytes: &[u8]| out.write_all(bytes).map_err(|why| format!("standard output: {why}"));
    write(&bytes(&room.block(lamps_build_light_bounds)))?;
    for _ in 0..groups {
        let u = random.share();
        write(&bytes(&room.query(&mut random)))?;
        write(&u.to_le_bytes())?;
    }
    out.flush().map(|()| true).map_err(|why| format!("standard output: {why}"))
}

/// `block LIST BLOCK`: the oracle's block of a lamp list, or `refused N`, as the program `lamps_to_block` writes them.
#[cfg(reference)]
pub fn block(arguments: &[String]) -> Ended {
    use crate::inputs::lists::{BLOCK_RECORD, MOST_LAMPS};
    use crate::inputs::walks::words;
    use crate::oracle::reference::build_light_bounds;

    let [from, to] = arguments else { return Err(format!("{} arguments are given", arguments.len())) };
    let list = words(&std::fs::read(from).map_err(|why| format!("{from}: {why}"))?);
    let mut block = vec![0; 1 + BLOCK_RECORD * list.first().map_or(0, |lamps| *lamps as usize).min(MOST_LAMPS)];
    let text = |number: u32| format!("refused {number}\n").into_bytes();
    let answer = build_light_bounds(&list, &mut block).map_or_else(text, |()| bytes(&block));
    std::fs::write(to, answer).map(|()| true).map_err(|why| format!("{to}: {why}"))
}
