//! `light list` and `light columns`: what the proved programs read, as 32-bit words, the lowest byte first.

use crate::bench::Bench;
use crate::options::Options;
use crate::output::Output;
use crate::source::{Lines, once, room};
use crate::text::Stop;

/// `light list ROOM`: the lamps, for lamps_to_block.
pub fn list(options: &Options, output: &mut Output) -> Result<(), Stop> {
    let [path] = options.arguments();
    output.words(&room(path)?.list()?)
}

/// `light columns ROOM BENCHES`: the lamps' bounds and seven words a bench, for columns.
pub fn columns(options: &Options, output: &mut Output) -> Result<(), Stop> {
    let [path, benches] = options.arguments();
    once(path, benches)?;
    let room = room(path)?;
    let mut lines = Lines::open(benches)?;
    output.words(room.block()?.words())?;
    let mut count = 0;
    while lines.advance()? {
        if let Some(Bench { place, u, .. }) = lines.bench()? {
            output.words(
                &[&place.p[..], &place.n, &[u]].concat().iter().map(|figure| figure.to_bits()).collect::<Vec<_>>(),
            )?;
            count += 1;
        }
        output.pause(|| lines.far(count))?;
    }
    Ok(())
}
