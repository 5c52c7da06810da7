use crate::{MAX_LAMPS, Refusal, sys};

/// A bin of an [`AliasTable`].
///
/// ```
/// use light_tree::{AliasTable, PowerAliasBin};
///
/// assert_eq!(AliasTable::build(&[1.0, 3.0])?.bins()[0], PowerAliasBin { q: 0.5, p: 0.25, alias: 1 });
/// # Ok::<(), light_tree::Refusal>(())
/// ```
#[derive(Clone, Copy, Debug, PartialEq)]
#[repr(C)]
pub struct PowerAliasBin {
    /// Below this the bin's own place is drawn, from it on its alias.
    pub q: f32,
    /// The weight's share of the sum, 0 where that overflows.
    pub p: f32,
    /// The other place, [`INVALID_INDEX`](crate::INVALID_INDEX) where q is 1.
    pub alias: u32,
}

/// An alias table: draws by weight alone, as of lamps by their power, with one look.
///
/// A draw picks a bin, each alike, and a number from 0 to below 1: below q the bin's own place is drawn, else its
/// alias. Weights whose sum overflows f32 are drawn alike: each bin has p 0 and q 1, as in pbrt-r4.
///
/// ```
/// use light_tree::{AliasTable, INVALID_INDEX};
///
/// let table = AliasTable::build(&[1.0, 3.0])?;
/// assert_eq!(table.bins().iter().map(|bin| bin.p).collect::<Vec<_>>(), [0.25, 0.75]);
/// assert_eq!((table.bins()[1].q, table.bins()[1].alias), (1.0, INVALID_INDEX));
/// let past_the_largest = AliasTable::build(&[f32::MAX, f32::MAX])?;
/// assert!(past_the_largest.bins().iter().all(|bin| (bin.q, bin.p, bin.alias) == (1.0, 0.0, INVALID_INDEX)));
/// # Ok::<(), light_tree::Refusal>(())
/// ```
#[derive(Clone, Debug, PartialEq)]
pub struct AliasTable {
    bins: Vec<PowerAliasBin>,
}

impl AliasTable {
    /// The table of at most 4,096 weights, each finite and not below 0. Where their sum is 0 each counts as 1.
    ///
    /// One allocation: the work stands behind the bins, and its room is given back.
    ///
    /// # Errors
    ///
    /// [`Crowded`](Refusal::Crowded) for more than 4,096 weights, [`OutOfRange`](Refusal::OutOfRange) for one that is
    /// not finite or below 0.
    ///
    /// ```
    /// use light_tree::{AliasTable, Refusal};
    ///
    /// assert_eq!(AliasTable::build(&[0.0; 4])?.bins()[2].p, 0.25);
    /// assert_eq!(AliasTable::build(&[f32::NAN]), Err(Refusal::OutOfRange));
    /// assert_eq!(AliasTable::build(&[1.0; 4097]), Err(Refusal::Crowded));
    /// # Ok::<(), Refusal>(())
    /// ```
    pub fn build(weights: &[f32]) -> Result<AliasTable, Refusal> {
        let count = weights.len();
        if count > MAX_LAMPS {
            return Err(Refusal::Crowded);
        }
        // the work is four words a weight, a bin three
        let mut bins = vec![PowerAliasBin { q: 0.0, p: 0.0, alias: 0 }; count + (4 * count).div_ceil(3)];
        let (front, work) = bins.split_at_mut(count);
        sys::alias_table(weights, front, work)?;
        bins.truncate(count);
        bins.shrink_to_fit();
        Ok(AliasTable { bins })
    }

    /// Draws a place by a number u from 0 to 1: the place, and its weight's share p of the sum. None of a table of no
    /// weights. Nothing is allocated.
    ///
    /// The steps are those of pbrt-v4's `AliasTable::Sample`, in f32: u times the number of bins, cut to a whole
    /// number, is the bin, at most the last, and what is left, held below 1, is the number that is compared with q.
    /// So u = 1, which pbrt-v4 excludes, draws from the last bin. They are written here, in Rust, and not proved; the
    /// bins are.
    ///
    /// # Errors
    ///
    /// [`BadU`](Refusal::BadU) where u is not a number from 0 to 1, as in
    /// [`LightTree::sample`](crate::LightTree::sample).
    ///
    /// ```
    /// use light_tree::{AliasTable, Refusal};
    ///
    /// let table = AliasTable::build(&[1.0, 3.0])?;
    /// assert_eq!([0.0, 0.2, 0.3, 0.5, 1.0].map(|u| table.sample(u).unwrap().unwrap().0), [0, 0, 1, 1, 1]);
    /// assert_eq!(table.sample(0.5)?, Some((1, 0.75)));
    /// assert_eq!(table.sample(1.5), Err(Refusal::BadU));
    /// # Ok::<(), Refusal>(())
    /// ```
    pub fn sample(&self, u: f32) -> Result<Option<(u32, f32)>, Refusal> {
        if !(0.0..=1.0).contains(&u) {
            return Err(Refusal::BadU);
        }
        let Some(last) = self.bins.len().checked_sub(1) else { return Ok(None) };
        let scaled = u * self.bins.len() as f32;
        let own = (scaled as usize).min(last);
        let left = (scaled - own as f32).min(1.0f32.next_down());
        let place = if left < self.bins[own].q { own as u32 } else { self.bins[own].alias };
        Ok(self.bins.get(place as usize).map(|bin| (place, bin.p)))
    }

    /// A bin for each weight.
    ///
    /// ```
    /// assert_eq!(light_tree::AliasTable::build(&[])?.bins(), []);
    /// # Ok::<(), light_tree::Refusal>(())
    /// ```
    pub fn bins(&self) -> &[PowerAliasBin] {
        &self.bins
    }

    /// The bins, as their owner.
    ///
    /// ```
    /// assert_eq!(light_tree::AliasTable::build(&[2.0])?.into_bins().len(), 1);
    /// # Ok::<(), light_tree::Refusal>(())
    /// ```
    pub fn into_bins(self) -> Vec<PowerAliasBin> {
        self.bins
    }
}
