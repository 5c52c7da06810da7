//! The reference's files, compiled twice: as the oracle, over the library functions of R2, and as they
//! are, over Rust's own.

use super::branches::{Branch, mark};
use super::errors::{PbrtError, invalid_box, lost, past_left, past_right};
use crate::oracle::{standins, trig};

/// A light record of the renderer: a tree counts them and reads none.
#[derive(Clone)]
pub struct Light;

/// No node and no lamp.
pub const INVALID_INDEX: u32 = u32::MAX;

/// The library functions of docs/REQUIREMENTS.md R2 as methods, under the names that `substitution.rs` puts in.
macro_rules! standins {
    ($($name:ident($($other:ident),*) -> $answer:ty: $function:expr;)*) => {
        trait Standin {
            $(fn $name(self, $($other: f32),*) -> $answer;)*
        }

        impl Standin for f32 {
            $(fn $name(self, $($other: f32),*) -> $answer {
                $function(self, $($other),*)
            })*
        }
    };
}

standins! {
    standin_min(other) -> f32: standins::min;
    standin_max(other) -> f32: standins::max;
    standin_clamp(lo, hi) -> f32: standins::clamp;
    standin_abs() -> f32: standins::abs;
    standin_sqrt() -> f32: standins::sqrt;
    standin_floor() -> f32: standins::floor;
    standin_ceil() -> f32: standins::ceil;
    standin_round() -> f32: standins::round;
    standin_cos() -> f32: trig::cos;
    standin_acos() -> f32: trig::acos;
    standin_sin_cos() -> (f32, f32): |x| (trig::sin(x), trig::cos(x));
    standin_word() -> u32: standins::word;
}

/// What the reference borrows: a vector whose sums run left to right, and sampling.rs's `angle_between`.
macro_rules! borrowed {
    ($sqrt:path, $asin:path) => {
        mod borrowed {
            use std::ops::{Add, Sub};
            use $asin as asin;

            type Float = f32;
            const PI: Float = f32::from_bits(0x4049_0fdb);

            #[derive(Clone, Copy)]
            pub struct Vector3f {
                x: f32,
                y: f32,
                z: f32,
            }

            impl Vector3f {
                pub fn new(x: f32, y: f32, z: f32) -> Vector3f {
                    Vector3f { x, y, z }
                }

                fn dot(self, other: Vector3f) -> f32 {
                    self.x * other.x + self.y * other.y + self.z * other.z
                }

                fn length(self) -> f32 {
                    $sqrt(self.dot(self))
                }
            }

            impl Add for Vector3f {
                type Output = Vector3f;
                fn add(self, other: Vector3f) -> Vector3f {
                    Vector3f { x: self.x + other.x, y: self.y + other.y, z: self.z + other.z }
                }
            }

            impl Sub for Vector3f {
                type Output = Vector3f;
                fn sub(self, other: Vector3f) -> Vector3f {
                    Vector3f { x: self.x - other.x, y: self.y - other.y, z: self.z - other.z }
                }
            }

            include!(concat!(env!("OUT_DIR"), "/angle_between.rs"));
        }
    };
}

/// The files of one side, as the build script wrote them; `flat` is what the packing knows of the others.
macro_rules! files {
    ($side:literal) => {
        pub mod light_bounds {
            include!(concat!(env!("OUT_DIR"), "/", $side, "_light_bounds.rs"));
        }

        pub mod light_bvh {
            include!(concat!(env!("OUT_DIR"), "/", $side, "_light_bvh.rs"));
        }

        pub mod light_sampler {
            include!(concat!(env!("OUT_DIR"), "/", $side, "_light_sampler.rs"));
        }

        pub mod flat {
            pub use super::INVALID_INDEX;
            pub use super::light_bounds::{Bounds3, LightBounds};
            pub use super::light_bvh::{LightBVH, LightBVHNode};
        }

        pub mod packed_bvh {
            include!(concat!(env!("OUT_DIR"), "/", $side, "_packed_bvh.rs"));
        }
    };
}

/// The reference over the library functions of R2.
#[allow(dead_code, clippy::all)]
pub mod oracle {
    pub use super::INVALID_INDEX;
    use super::{Branch, Light, PbrtError, Standin, invalid_box, lost, mark, past_left, past_right};

    borrowed!(crate::oracle::standins::sqrt, crate::oracle::trig::asin);
    files!("oracle");
}

/// The reference over Rust's own.
#[allow(dead_code, clippy::all)]
pub mod native {
    pub use super::INVALID_INDEX;
    use super::{Light, PbrtError, invalid_box, lost, past_left, past_right};

    fn asin(x: f32) -> f32 {
        x.asin()
    }
    fn sqrt(x: f32) -> f32 {
        x.sqrt()
    }
    borrowed!(super::sqrt, super::asin);
    files!("native");
}
