use crate::bounds::{Block, block_words};
use crate::{MAX_LAMPS, Refusal, sys};

/// A lamp as a scene has it. Its handle is its place among the lamps. More kinds may come, so a `match` needs an arm
/// for all others.
///
/// ```
/// use light_tree::{Lamp, Triangle};
///
/// let half = Triangle {
///     world_positions: [[0.0, 0.0, 2.0], [1.0, 0.0, 2.0], [1.0, 1.0, 2.0]],
///     area: 0.5,
///     geometric_normal: [0.0, 0.0, -1.0],
/// };
/// let panel = Lamp::Group { triangles: vec![half], emission_max: 8.0, scale: 1.0, two_sided: false };
/// assert_eq!(light_tree::bounds_block(&[panel])?.words()[0], 1);
/// # Ok::<(), light_tree::Refusal>(())
/// ```
#[derive(Clone, Debug, PartialEq)]
#[non_exhaustive]
pub enum Lamp {
    /// A bulb that shines in every direction.
    Point {
        /// Where it is.
        world_position: [f32; 3],
        /// Its greatest intensity, not below 0.
        intensity_max: f32,
        /// A factor, not below 0.
        scale: f32,
    },
    /// A spot.
    Spot {
        /// Where it is.
        world_position: [f32; 3],
        /// Which way it shines, at any length.
        direction: [f32; 3],
        /// Its greatest intensity, not below 0.
        intensity_max: f32,
        /// A factor, not below 0.
        scale: f32,
        /// The cosine of the angle where its light begins to fall off.
        cos_theta_o: f32,
        /// The cosine of the angle where it ends.
        cos_falloff_end: f32,
    },
    /// A luminous surface of triangles.
    Group {
        /// At least one.
        triangles: Vec<Triangle>,
        /// Its greatest emission, not below 0.
        emission_max: f32,
        /// A factor, not below 0.
        scale: f32,
        /// Whether both sides shine.
        two_sided: bool,
    },
}

/// A triangle of a luminous surface.
///
/// ```
/// use light_tree::{bounds_block, Lamp, Refusal, Triangle};
///
/// let flat = Triangle { world_positions: [[0.0; 3]; 3], area: 0.0, geometric_normal: [0.0, 0.0, 1.0] };
/// let group = Lamp::Group { triangles: vec![flat], emission_max: 1.0, scale: 1.0, two_sided: true };
/// assert_eq!(bounds_block(&[group]), Err(Refusal::NoArea));
/// ```
#[derive(Clone, Copy, Debug, PartialEq)]
pub struct Triangle {
    /// Its corners.
    pub world_positions: [[f32; 3]; 3],
    /// Its area, above 0.
    pub area: f32,
    /// Its normal, at any length; a one-sided surface shines that way.
    pub geometric_normal: [f32; 3],
}

/// The head of a lamp in a list, but for its handle, and how many words it has, the head too.
const POINT: (u32, usize) = (1 << 30, 6);
const SPOT: (u32, usize) = (2 << 30, 11);
const GROUP: (u32, usize) = (3 << 30, 5);
const TRIANGLE_WORDS: usize = 13;

impl Lamp {
    fn words(&self) -> usize {
        match self {
            Lamp::Point { .. } => POINT.1,
            Lamp::Spot { .. } => SPOT.1,
            Lamp::Group { triangles, .. } => group_words(triangles.len()),
        }
    }

    fn write(&self, handle: u32, list: &mut Vec<u32>) {
        match self {
            Lamp::Point { world_position, intensity_max, scale } => {
                write_point(list, handle, *world_position, [*intensity_max, *scale])
            }
            Lamp::Spot { world_position, direction, intensity_max, scale, cos_theta_o, cos_falloff_end } => {
                let figures = [*intensity_max, *scale, *cos_theta_o, *cos_falloff_end];
                write_spot(list, handle, *world_position, *direction, figures);
            }
            Lamp::Group { triangles, emission_max, scale, two_sided } => {
                write_group(list, handle, [*emission_max, *scale], *two_sided, triangles)
            }
        }
    }
}

pub(crate) const POINT_WORDS: usize = POINT.1;
pub(crate) const SPOT_WORDS: usize = SPOT.1;

pub(crate) fn group_words(triangles: usize) -> usize {
    GROUP.1 + TRIANGLE_WORDS * triangles
}

/// A lamp's head. A handle that has no room there is no place either, as is the one that stands for it.
fn head(kind: u32, handle: u32) -> u32 {
    kind | handle.min(0x3fff_ffff)
}

fn extend(list: &mut Vec<u32>, figures: &[f32]) {
    list.extend(figures.iter().map(|figure| figure.to_bits()));
}

pub(crate) fn write_point(list: &mut Vec<u32>, handle: u32, position: [f32; 3], figures: [f32; 2]) {
    list.push(head(POINT.0, handle));
    extend(list, &position);
    extend(list, &figures);
}

pub(crate) fn write_spot(list: &mut Vec<u32>, handle: u32, position: [f32; 3], direction: [f32; 3], figures: [f32; 4]) {
    list.push(head(SPOT.0, handle));
    extend(list, &position);
    extend(list, &direction);
    extend(list, &figures);
}

pub(crate) fn write_group(
    list: &mut Vec<u32>,
    handle: u32,
    figures: [f32; 2],
    two_sided: bool,
    triangles: &[Triangle],
) {
    list.push(head(GROUP.0, handle));
    extend(list, &figures);
    list.extend([two_sided.into(), u32::try_from(triangles.len()).unwrap_or(u32::MAX)]);
    for triangle in triangles {
        extend(list, triangle.world_positions.as_flattened());
        extend(list, &[triangle.area]);
        extend(list, &triangle.geometric_normal);
    }
}

/// Lamps of so many words in all, written one by one: a list.
pub(crate) struct Written<F> {
    pub lamps: usize,
    pub words: usize,
    pub write: F,
}

impl<F: FnOnce(&mut Vec<u32>)> Written<F> {
    /// The list behind so many zeros. Over 4,096 lamps are not written at all.
    fn list(self, zeros: usize) -> Result<Vec<u32>, Refusal> {
        if self.lamps > MAX_LAMPS {
            return Err(Refusal::Crowded);
        }
        let mut list = Vec::with_capacity(zeros + 1 + self.words);
        list.resize(zeros, 0);
        list.push(self.lamps as u32);
        (self.write)(&mut list);
        Ok(list)
    }

    /// The list's block. Both stand in one `Vec`, the list behind.
    pub(crate) fn block(self) -> Result<Block, Refusal> {
        let reserve = block_words(self.lamps);
        let mut both = self.list(reserve)?;
        let (block, list) = both.split_at_mut(reserve);
        sys::bounds_block(list, block)?;
        both.truncate(reserve);
        both.shrink_to_fit();
        Ok(Block(both))
    }
}

fn written(lamps: &[Lamp]) -> Written<impl FnOnce(&mut Vec<u32>)> {
    let write = move |list: &mut Vec<u32>| (0..).zip(lamps).for_each(|(handle, lamp)| lamp.write(handle, list));
    Written { lamps: lamps.len(), words: lamps.iter().map(Lamp::words).sum(), write }
}

/// The lamp list of lamps: the words that the library, and programs beside it, read them from. Nothing of them is
/// checked but how many they are.
///
/// # Errors
///
/// [`Crowded`](Refusal::Crowded) for more than 4,096.
///
/// ```
/// use light_tree::{Lamp, lamp_list};
///
/// let bulb = Lamp::Point { world_position: [0.0; 3], intensity_max: 1.0, scale: 1.0 };
/// assert_eq!(lamp_list(&[bulb])?, [1, 0x4000_0000, 0, 0, 0, 0x3f80_0000, 0x3f80_0000]);
/// # Ok::<(), light_tree::Refusal>(())
/// ```
pub fn lamp_list(lamps: &[Lamp]) -> Result<Vec<u32>, Refusal> {
    written(lamps).list(0)
}

/// The bounds of lamps, in their order.
///
/// One allocation: the list that the lamps are written to stands behind the block, and its room is given back.
///
/// # Errors
///
/// [`Crowded`](Refusal::Crowded) for more than 4,096 lamps or a list of over 2^20 words. Else the first lamp that
/// cannot be taken refuses them all: [`NotFinite`](Refusal::NotFinite), [`NoDirection`](Refusal::NoDirection),
/// [`OutOfRange`](Refusal::OutOfRange), [`NoArea`](Refusal::NoArea) or [`LostUnion`](Refusal::LostUnion).
///
/// ```
/// use light_tree::{bounds_block, Lamp, Refusal};
///
/// let lamp = |intensity_max| Lamp::Point { world_position: [0.0; 3], intensity_max, scale: 1.0 };
/// assert_eq!(bounds_block(&[lamp(1.0), lamp(2.0)])?.records().len(), 2);
/// assert_eq!(bounds_block(&[lamp(1.0), lamp(-2.0)]), Err(Refusal::OutOfRange));
/// # Ok::<(), Refusal>(())
/// ```
pub fn bounds_block(lamps: &[Lamp]) -> Result<Block, Refusal> {
    written(lamps).block()
}
