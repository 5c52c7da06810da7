//! What the calls are given: words that are often plain and sometimes odd, and whole ones spoilt.

use crate::inputs::random::Random;

/// A word of a float that is often plain, sometimes odd.
pub fn float(random: &mut Random) -> u32 {
    match random.below(16) {
        0 => random.below(1 << 32) as u32,
        1 => [0x7f80_0000, 0xff80_0000, 0x7fc0_0000, 0x8000_0000, 1, 0x7f7f_ffff][random.below(6) as usize],
        2..=4 => 0,
        5..=7 => 0x3f80_0000,
        _ => random.within(4.0).to_bits(),
    }
}

pub fn block(random: &mut Random, lamps: u32) -> Vec<u32> {
    let mut words = vec![lamps];
    for handle in 0..lamps {
        let low = [0; 3].map(|_| random.within(4.0));
        let wide = random.below(2) as f32;
        let high = low.map(|x| x + wide * random.within(1.0).abs());
        let odd = random.below(24) == 0;
        words.push(handle);
        words.extend(low.iter().chain(&high).map(|x| x.to_bits()));
        words.extend(if odd { [0; 3].map(|_| float(random)) } else { [0, 0, 0x3f80_0000] });
        words.push(if odd { float(random) } else { random.within(8.0).abs().to_bits() });
        words.extend([[0xbf80_0000, 0], [0x3f66_6666, 0x3f7d_70a4], [0x3f80_0000, 0]][random.below(3) as usize]);
        words.push(random.below(2) as u32);
    }
    words
}

/// A list of so many lamps, of known kinds alone where it is to be whole; else cut, and now and then with a
/// word that is odd.
pub fn list(random: &mut Random, lamps: u32, whole: bool) -> Vec<u32> {
    let mut list = vec![lamps];
    for handle in 0..lamps {
        let kind = if whole { 1 + random.below(3) } else { random.below(4) } as u32;
        list.push(kind << 30 | handle);
        let plain =
            |random: &mut Random, n: u64| (0..n).map(|_| random.within(2.0).abs().to_bits()).collect::<Vec<u32>>();
        match kind {
            1 => list.extend(plain(random, 5)),
            2 => list.extend(plain(random, 8).into_iter().chain([0x3f66_6666, 0x3f00_0000])),
            3 => {
                let triangles = random.below(3);
                list.extend([0x3f80_0000, 0x3f80_0000, random.below(2) as u32, triangles as u32]);
                list.extend(plain(random, 13 * triangles));
            }
            _ => list.extend(plain(random, 3)),
        }
    }
    if random.below(4) == 0 && list.len() > 1 {
        let at = 1 + random.below(list.len() as u64 - 1) as usize;
        list[at] = float(random);
    }
    if !whole {
        list.truncate(random.below(list.len() as u64 + 1) as usize);
    }
    list
}

/// Changes some words, cuts some off or puts some behind.
pub fn spoil(random: &mut Random, bytes: &mut Vec<u8>) {
    for _ in 0..random.below(3) {
        if bytes.len() >= 4 {
            let at = 4 * random.below(bytes.len() as u64 / 4) as usize;
            let word = match random.below(4) {
                0 => random.below(16) as u32,
                1 => 0x4000_0000 | random.below(32) as u32,
                2 => 0x8000_0000 | random.below(32) as u32,
                _ => float(random),
            };
            bytes[at..at + 4].copy_from_slice(&word.to_le_bytes());
        }
    }
    match random.below(8) {
        0 => bytes.truncate(random.below(bytes.len() as u64 + 1) as usize),
        1 => bytes.extend((0..random.below(130)).map(|i| i as u8)),
        2 => bytes.clear(),
        _ => {}
    }
}

pub fn query(random: &mut Random) -> [f32; 6] {
    let normal = random.below(2) == 0;
    std::array::from_fn(|i| match random.below(24) {
        0 => f32::from_bits(float(random)),
        _ if i < 3 || normal => random.within(4.0),
        _ => 0.0,
    })
}
