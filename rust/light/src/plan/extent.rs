//! How far a room reaches, in round numbers, and how that is laid onto a drawing.

use crate::bench::Bench;
use crate::plan::marks::{Mark, Point3, finite};
use crate::plan::markup::Box2;

/// A side of the room, outward to round numbers.
#[derive(Clone, Copy)]
pub struct Side {
    pub low: f64,
    pub high: f64,
    /// From one line of the grid to the next.
    pub step: f64,
}

impl Side {
    pub fn length(&self) -> f64 {
        self.high - self.low
    }

    /// The lines of the grid, with what stands at them.
    pub fn ticks(&self) -> impl Iterator<Item = (f64, String)> + '_ {
        let first = (self.low / self.step - 1e-6).ceil();
        let count = ((self.high / self.step + 1e-6).floor() - first).clamp(0.0, 40.0) as usize;
        (0..=count).map(move |at| (first + at as f64) * self.step).map(|value| (value, tick(value, self.step)))
    }
}

/// The room by x, y and z.
pub struct Extent {
    pub sides: [Side; 3],
}

impl Extent {
    /// Of all lamps, and of the benches that have a place.
    pub fn of(marks: &[Mark], benches: &[Bench]) -> Extent {
        let mut ends = [None; 3];
        let benches = benches.iter().filter_map(|bench| finite(bench.place.p));
        for point in marks.iter().flat_map(Mark::points).chain(benches) {
            for (end, x) in ends.iter_mut().zip(point) {
                let (low, high) = end.unwrap_or((x, x));
                *end = Some((x.min(low), x.max(high)));
            }
        }
        let ends: [(f64, f64); 3] = ends.map(|end| end.unwrap_or((0.0, 0.0)));
        let [x, y, z] = ends.map(|(low, high)| finest(low, high));
        // one scale for the floor: some six lines to its longer side
        let floor = round_up((x / 6.0).max(y / 6.0));
        let up = round_up(z / 3.0);
        // the floor reaches to half a step, since it is drawn to the scale of its longer side
        let [x, y, z] = ends;
        Extent { sides: [side(x, floor, floor / 2.0), side(y, floor, floor / 2.0), side(z, up, up)] }
    }
}

/// The length from one end to the other, and not so short that floats could not tell its parts apart.
fn finest(low: f64, high: f64) -> f64 {
    (high - low).max(1e-4 * low.abs().max(high.abs()))
}

/// Outward to the next multiple of `to`.
fn side((low, high): (f64, f64), step: f64, to: f64) -> Side {
    let low = (low / to + 1e-6).floor() * to;
    let high = ((high / to - 1e-6).ceil() * to).max(low + step);
    Side { low, high, step }
}

/// 1, 2 or 5 times a power of ten, the least that is not below.
fn round_up(x: f64) -> f64 {
    if x <= 0.0 {
        return 1.0;
    }
    let power = 10f64.powf(x.log10().floor());
    let rounds = [1.0, 2.0, 5.0, 10.0].map(|times| times * power);
    rounds.into_iter().find(|round| *round >= x * (1.0 - 1e-9)).unwrap_or(10.0 * power)
}

/// What stands at a line of the grid, by the step to the next.
pub fn tick(value: f64, step: f64) -> String {
    if value.abs() < step / 2.0 {
        return "0".into();
    }
    let text = if value.abs() >= 1e6 || step < 1e-4 {
        // no more digits than tell it from its neighbours
        let digits = (value.abs().log10().floor() - step.log10().floor()).clamp(0.0, 9.0) as usize;
        format!("{value:.digits$e}")
    } else {
        let digits = (-step.log10().floor()).max(0.0) as usize;
        format!("{value:.digits$}")
    };
    text.replace('-', "−")
}

/// Two sides of the room on a drawing: from the left and from below.
pub struct Sheet {
    axes: [usize; 2],
    low: [f64; 2],
    /// Pixels a unit.
    pub scale: [f64; 2],
    /// Where both sides begin and end.
    pub inner: Box2,
}

impl Sheet {
    /// Of two axes, so many pixels a unit, with its upper left corner there.
    pub fn new(extent: &Extent, axes: [usize; 2], corner: [f64; 2], scale: [f64; 2]) -> Sheet {
        let [across, up] = axes.map(|axis| extent.sides[axis]);
        let inner = Box2 { x: corner[0], y: corner[1], w: across.length() * scale[0], h: up.length() * scale[1] };
        Sheet { axes, low: [across.low, up.low], scale, inner }
    }

    /// Where a point of the room is.
    pub fn at(&self, point: Point3) -> [f64; 2] {
        let [across, up] = self.way(point);
        let [low_across, low_up] = [self.low[0] * self.scale[0], -self.low[1] * self.scale[1]];
        [self.inner.x + across - low_across, self.inner.bottom() + up - low_up]
    }

    /// Which way a direction of the room goes, and how far.
    pub fn way(&self, direction: Point3) -> [f64; 2] {
        let [across, up] = self.axes.map(|axis| direction[axis]);
        [across * self.scale[0], -up * self.scale[1]]
    }

    /// The two figures of a point that the drawing shows, and the one that it does not.
    pub fn parts(&self, point: Point3) -> ([f64; 2], f64) {
        let hidden = 3 - self.axes[0] - self.axes[1];
        (self.axes.map(|axis| point[axis]), point[hidden])
    }
}
