use crate::{INVALID_INDEX, MAX_LAMPS, Refusal, sys};

/// The words of a lamp's record: box 6, direction 3, phi, two cosines, side.
pub(crate) const RECORD_WORDS: usize = 13;
/// The words of a lamp in a [`Block`]: its handle and its record.
///
/// ```
/// assert_eq!(light_tree::EXHAUSTIVE_BOUNDS_WORDS, 14);
/// ```
pub const EXHAUSTIVE_BOUNDS_WORDS: usize = 1 + RECORD_WORDS;

/// A box, from its least corner to its greatest.
///
/// ```
/// use light_tree::Bounds3;
///
/// let unit = Bounds3 { min: [0.0; 3], max: [1.0; 3] };
/// assert_eq!(Bounds3::new([0.0; 3], [1.0; 3]), Ok(unit));
/// ```
#[derive(Clone, Copy, Debug, PartialEq)]
pub struct Bounds3 {
    /// The least corner.
    pub min: [f32; 3],
    /// The greatest corner.
    pub max: [f32; 3],
}

impl Bounds3 {
    /// A box that is finite and not inverted.
    ///
    /// # Errors
    ///
    /// [`NotFinite`](Refusal::NotFinite) or [`Inverted`](Refusal::Inverted) for any other.
    ///
    /// ```
    /// use light_tree::{Bounds3, Refusal};
    ///
    /// assert_eq!(Bounds3::new([0.0; 3], [1.0, 1.0, f32::NAN]), Err(Refusal::NotFinite));
    /// assert_eq!(Bounds3::new([0.0, 0.0, 2.0], [1.0; 3]), Err(Refusal::Inverted));
    /// ```
    pub fn new(min: [f32; 3], max: [f32; 3]) -> Result<Bounds3, Refusal> {
        let bounds = Bounds3 { min, max };
        LightBounds::new(bounds, 1.0).validate().map(|_| bounds)
    }

    pub(crate) fn from_words(words: [u32; 6]) -> Bounds3 {
        let [a, b, c, d, e, f] = words.map(f32::from_bits);
        Bounds3 { min: [a, b, c], max: [d, e, f] }
    }

    pub(crate) fn to_words(self) -> [u32; 6] {
        let ([a, b, c], [d, e, f]) = (self.min, self.max);
        [a, b, c, d, e, f].map(f32::to_bits)
    }
}

/// The bounds of a lamp: where it is, which way it shines, how strongly.
///
/// More fields may come, so they are made by [`LightBounds::new`] and changed field by field.
///
/// ```
/// use light_tree::{Bounds3, LightBounds};
///
/// let mut spot = LightBounds::new(Bounds3::new([0.0; 3], [0.0; 3])?, 40.0);
/// spot.direction = [0.0, 0.0, -1.0];
/// (spot.cos_theta_o, spot.cos_theta_e) = (0.9, 0.8);
/// assert_eq!(spot.validate(), Ok(spot));
/// # Ok::<(), light_tree::Refusal>(())
/// ```
#[derive(Clone, Copy, Debug, PartialEq)]
#[non_exhaustive]
pub struct LightBounds {
    /// The box around it.
    pub bounds: Bounds3,
    /// The middle of the directions in which it shines.
    pub direction: [f32; 3],
    /// Its power; a lamp with none is in no tree.
    pub phi: f32,
    /// The cosine of the angle about the direction within which it shines.
    pub cos_theta_o: f32,
    /// The cosine of the angle outside of that one within which it fades.
    pub cos_theta_e: f32,
    /// Whether it shines backwards too.
    pub two_sided: bool,
}

impl LightBounds {
    /// The bounds of a lamp of power phi that shines alike in every direction: about (0, 0, 1) with cosines -1 and 0,
    /// on one side. Nothing is checked here.
    ///
    /// ```
    /// use light_tree::{Bounds3, LightBounds};
    ///
    /// let bulb = LightBounds::new(Bounds3::new([1.0; 3], [1.0; 3])?, 2.0);
    /// assert_eq!((bulb.phi, bulb.direction), (2.0, [0.0, 0.0, 1.0]));
    /// assert_eq!((bulb.cos_theta_o, bulb.cos_theta_e, bulb.two_sided), (-1.0, 0.0, false));
    /// # Ok::<(), light_tree::Refusal>(())
    /// ```
    pub fn new(bounds: Bounds3, phi: f32) -> LightBounds {
        LightBounds { bounds, direction: [0.0, 0.0, 1.0], phi, cos_theta_o: -1.0, cos_theta_e: 0.0, two_sided: false }
    }

    /// The bounds themselves where build would accept them: all figures finite, min not above max, a direction with a
    /// length, phi not below 0, cosines from -1 to 1. Nothing is allocated.
    ///
    /// # Errors
    ///
    /// The first that holds of [`NotFinite`](Refusal::NotFinite) and [`Inverted`](Refusal::Inverted) for the box,
    /// [`NotFinite`](Refusal::NotFinite) for other figures, [`NoDirection`](Refusal::NoDirection) and
    /// [`OutOfRange`](Refusal::OutOfRange).
    ///
    /// ```
    /// use light_tree::{Bounds3, LightBounds, Refusal};
    ///
    /// let mut lamp = LightBounds::new(Bounds3::new([0.0; 3], [0.0; 3])?, 1.0);
    /// lamp.direction = [0.0; 3];
    /// assert_eq!(lamp.validate(), Err(Refusal::NoDirection));
    /// # Ok::<(), Refusal>(())
    /// ```
    pub fn validate(self) -> Result<LightBounds, Refusal> {
        let mut block = [0; 1 + EXHAUSTIVE_BOUNDS_WORDS];
        write_block(&[self], &mut block);
        sys::build(1, &block, &mut [0; 16], &mut [0], &mut [0; 2]).map(|_| self)
    }

    pub(crate) fn from_words(words: &[u32; RECORD_WORDS]) -> LightBounds {
        let [bounds @ .., x, y, z, phi, cos_theta_o, cos_theta_e, side] = *words;
        let figure = f32::from_bits;
        LightBounds {
            bounds: Bounds3::from_words(bounds),
            direction: [x, y, z].map(figure),
            phi: figure(phi),
            cos_theta_o: figure(cos_theta_o),
            cos_theta_e: figure(cos_theta_e),
            two_sided: side != 0,
        }
    }

    fn write(&self, words: &mut [u32]) {
        words[..6].copy_from_slice(&self.bounds.to_words());
        words[6..9].copy_from_slice(&self.direction.map(f32::to_bits));
        words[9..12].copy_from_slice(&[self.phi, self.cos_theta_o, self.cos_theta_e].map(f32::to_bits));
        words[12] = self.two_sided.into();
    }
}

/// The words of a block of so many lamps.
pub(crate) fn block_words(lamps: usize) -> usize {
    1 + EXHAUSTIVE_BOUNDS_WORDS * lamps
}

/// Writes the block of bounds to as many words.
pub(crate) fn write_block(bounds: &[LightBounds], block: &mut [u32]) {
    block[0] = bounds.len() as u32;
    for (handle, (row, bounds)) in block[1..].chunks_exact_mut(EXHAUSTIVE_BOUNDS_WORDS).zip(bounds).enumerate() {
        row[0] = handle as u32;
        bounds.write(&mut row[1..]);
    }
}

/// A bounds block: how many lamps, then 14 words a lamp, its handle and its bounds.
///
/// ```
/// use light_tree::{bounds_block, Lamp};
///
/// let bulb = Lamp::Point { world_position: [1.0, 2.0, 3.0], intensity_max: 3.0, scale: 1.0 };
/// let block = bounds_block(&[bulb])?;
/// assert_eq!(block.words()[..2], [1, 0]);
/// # Ok::<(), light_tree::Refusal>(())
/// ```
#[derive(Clone, Debug, PartialEq, Eq)]
pub struct Block(pub(crate) Vec<u32>);

impl Block {
    /// The block of bounds. They are not checked here; build does that.
    ///
    /// # Errors
    ///
    /// [`Crowded`](Refusal::Crowded) for more than 4,096.
    ///
    /// ```
    /// assert_eq!(light_tree::Block::new(&[])?.words(), [0]);
    /// # Ok::<(), light_tree::Refusal>(())
    /// ```
    pub fn new(bounds: &[LightBounds]) -> Result<Block, Refusal> {
        if bounds.len() > MAX_LAMPS {
            return Err(Refusal::Crowded);
        }
        let mut words = vec![0; block_words(bounds.len())];
        write_block(bounds, &mut words);
        Ok(Block(words))
    }

    /// Its words.
    ///
    /// ```
    /// assert_eq!(light_tree::bounds_block(&[])?.words(), [0]);
    /// # Ok::<(), light_tree::Refusal>(())
    /// ```
    pub fn words(&self) -> &[u32] {
        &self.0
    }

    /// Its words, as their owner.
    ///
    /// ```
    /// assert_eq!(light_tree::bounds_block(&[])?.into_words(), vec![0]);
    /// # Ok::<(), light_tree::Refusal>(())
    /// ```
    pub fn into_words(self) -> Vec<u32> {
        self.0
    }

    /// The bounds of each lamp, in the order of their handles.
    ///
    /// ```
    /// use light_tree::{bounds_block, Lamp};
    ///
    /// let bulb = Lamp::Point { world_position: [1.0, 2.0, 3.0], intensity_max: 3.0, scale: 1.0 };
    /// let block = bounds_block(&[bulb])?;
    /// let bounds = block.records().next().unwrap();
    /// assert_eq!((bounds.bounds.min, bounds.phi), ([1.0, 2.0, 3.0], 37.699112));
    /// # Ok::<(), light_tree::Refusal>(())
    /// ```
    pub fn records(&self) -> impl ExactSizeIterator<Item = LightBounds> + '_ {
        self.0[1..].as_chunks::<EXHAUSTIVE_BOUNDS_WORDS>().0.iter().map(|row| {
            let [_, record @ ..] = row;
            LightBounds::from_words(record)
        })
    }
}

/// A place or a handle, but for the word that stands for none.
pub(crate) fn index(word: u32) -> Option<u32> {
    (word != INVALID_INDEX).then_some(word)
}
