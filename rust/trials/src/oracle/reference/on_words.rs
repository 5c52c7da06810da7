//! Records, lists, weights and trees as words, on either side: its answers on words, and what it writes to
//! the slices lent.

use super::errors::{CROWDED, LOST_UNION, MISPLACED, PbrtError, RAGGED, SHORT_TRAY, number};
use super::sides::{INVALID_INDEX, Light, native, oracle};
use crate::inputs::blocks;
use crate::inputs::lists::{self, BLOCK_RECORD, Kind, Lamp};
use crate::inputs::records::{Query, Record};
use crate::inputs::trees::{self, INTERIOR, LEAF, NODE, PAYLOAD, Trays};
use crate::oracle::standins;
use crate::stored::padded;

pub(crate) fn three(words: &[u32]) -> [f32; 3] {
    [0, 1, 2].map(|i| f32::from_bits(words[i]))
}

/// Records as words on one side, and that side's answers on words.
macro_rules! on_words {
    ($side:ident, $validate:ident, $union:ident, $importance:ident, $of_words:ident, $to_words:ident) => {
        /// A record of words; an unknown side is refused.
        pub fn $of_words(words: &Record) -> Result<$side::light_bounds::LightBounds, u32> {
            Ok($side::light_bounds::LightBounds {
                bounds: $side::light_bounds::Bounds3 { min: three(&words[0..]), max: three(&words[3..]) },
                direction: three(&words[6..]),
                phi: f32::from_bits(words[9]),
                cos_theta_o: f32::from_bits(words[10]),
                cos_theta_e: f32::from_bits(words[11]),
                two_sided: match words[12] {
                    0 => false,
                    1 => true,
                    _ => return Err(RAGGED),
                },
            })
        }

        pub fn $to_words(record: &$side::light_bounds::LightBounds) -> Record {
            let (bounds, cones) = (record.bounds, [record.phi, record.cos_theta_o, record.cos_theta_e]);
            words_of([bounds.min, bounds.max, record.direction, cones], record.two_sided)
        }

        pub fn $validate(record: &Record) -> Result<(), u32> {
            $of_words(record)?.validate().map(|_| ()).map_err(number)
        }

        pub fn $union(a: &Record, b: &Record) -> Result<Record, u32> {
            let (a, b) = ($of_words(a)?, $of_words(b)?);
            a.union(b).map(|joined| $to_words(&joined)).map_err(|_| LOST_UNION)
        }

        /// The importance as it is stored.
        pub fn $importance(record: &Record, query: &Query) -> Result<u32, u32> {
            let record = $of_words(record)?;
            record.importance(three(&query[0..]), three(&query[3..])).map(standins::word).map_err(number)
        }
    };
}

/// A record's words; a NaN is stored as 7fc00000.
fn words_of(figures: [[f32; 3]; 4], two_sided: bool) -> Record {
    let mut words = [0; 13];
    words.iter_mut().zip(figures.as_flattened()).for_each(|(word, figure)| *word = standins::word(*figure));
    words[12] = two_sided.into();
    words
}

on_words!(oracle, validate, union, importance, oracle_of_words, oracle_to_words);
on_words!(native, native_validate, native_union, native_importance, native_of_words, native_to_words);

/// The rule for a lent slice (R12.5 to R12.7) after the checks that leave it alone: its reserve holds what is given,
/// or zeros where that is refused; the words past it stay.
fn lend(slice: &mut [u32], given: Result<&[u32], usize>) {
    match given {
        Ok(words) => slice[..words.len()].copy_from_slice(words),
        Err(reserve) => slice[..reserve].fill(0),
    }
}

/// Lists and weights as words on one side, and that side's answers with what it writes to the slices lent.
macro_rules! on_lists {
    ($side:ident, $inputs:ident, $build:ident, $alias:ident) => {
        /// The lamps of a list as the reference takes them.
        pub fn $inputs(lamps: &[Lamp]) -> Vec<$side::light_bounds::LightBoundInput> {
            use $side::light_bounds::{AreaTriangleInput, LightBoundInput};
            let lamp = |&Lamp { kind, handle, words }: &Lamp| match kind {
                Kind::Point => LightBoundInput::Point {
                    handle,
                    world_position: three(words),
                    intensity_max: f32::from_bits(words[3]),
                    scale: f32::from_bits(words[4]),
                },
                Kind::Spot => LightBoundInput::Spot {
                    handle,
                    world_position: three(words),
                    direction: three(&words[3..]),
                    intensity_max: f32::from_bits(words[6]),
                    scale: f32::from_bits(words[7]),
                    cos_theta_o: f32::from_bits(words[8]),
                    cos_falloff_end: f32::from_bits(words[9]),
                },
                Kind::Group => LightBoundInput::AreaGroup {
                    handle,
                    triangles: lists::triangles(words)
                        .map(|words| AreaTriangleInput {
                            world_positions: [0, 3, 6].map(|at| three(&words[at..])),
                            area: f32::from_bits(words[9]),
                            geometric_normal: three(&words[10..]),
                        })
                        .collect(),
                    emission_max: f32::from_bits(words[0]),
                    scale: f32::from_bits(words[1]),
                    two_sided: words[2] == 1,
                },
            };
            lamps.iter().map(lamp).collect()
        }

        /// The list's lamps as records, written to the lent block.
        pub fn $build(list: &[u32], block: &mut [u32]) -> Result<(), u32> {
            let lamps = lists::read(list)?;
            let reserve = 1 + BLOCK_RECORD * lamps.len();
            let built = $side::light_bounds::build_light_bounds(&$inputs(&lamps));
            let misplaced = built.as_ref().is_err_and(|error| error.0 == MISPLACED);
            if !misplaced && block.len() < reserve {
                return Err(SHORT_TRAY);
            }
            let packed = built.and_then(|bounds| $side::light_sampler::pack_exhaustive_bounds(&bounds));
            let words = packed.map_err(number);
            if !misplaced {
                lend(block, words.as_deref().map_err(|_| reserve));
            }
            words.map(|_| ())
        }

        /// The weights' alias table, written to the lent bins; the lent work is left zero.
        pub fn $alias(weights: &[u32], bins: &mut [u32], work: &mut [u32]) -> Result<(), u32> {
            let m = weights.len();
            if m > lists::MOST_LAMPS {
                return Err(CROWDED);
            }
            if bins.len() < 3 * m || work.len() < 4 * m {
                return Err(SHORT_TRAY);
            }
            let weights: Vec<f32> = weights.iter().map(|weight| f32::from_bits(*weight)).collect();
            let table = $side::light_sampler::build_power_alias_table(&weights).map_err(number);
            let words = |table: Vec<$side::light_sampler::PowerAliasBin>| -> Vec<u32> {
                table.iter().flat_map(|bin| [standins::word(bin.q), standins::word(bin.p), bin.alias]).collect()
            };
            let words = table.map(words);
            lend(bins, words.as_deref().map_err(|_| 3 * m));
            lend(work, Err(4 * m));
            words.map(|_| ())
        }
    };
}

on_lists!(oracle, inputs, build_light_bounds, build_power_alias_table);
on_lists!(native, native_inputs, native_build_light_bounds, native_build_power_alias_table);

/// Trees as words on one side, and that side's tree of a block.
macro_rules! on_blocks {
    ($side:ident, $of_words:ident, $to_words:ident, $tree:ident, $node:ident, $of_node:ident, $build:ident) => {
        /// The tree of a block that has the layout.
        pub fn $tree(block: &[u32]) -> Result<$side::light_bvh::LightBVH, PbrtError> {
            let bounds: Vec<_> = blocks::records(block).map(|record| $of_words(record).unwrap()).collect();
            $side::light_bvh::build_light_bvh(&vec![Light; bounds.len()], &bounds)
        }

        pub fn $node(node: &$side::light_bvh::LightBVHNode) -> [u32; NODE] {
            use $side::light_bvh::LightBVHNode::{Interior, Leaf};
            let (head, right) = match node {
                Leaf { light_handle, .. } => (LEAF | light_handle, INVALID_INDEX),
                Interior { left_child, right_child, .. } => (INTERIOR | left_child, *right_child),
            };
            let mut words = padded(&[head, right, node.parent()]);
            words[3..].copy_from_slice(&$to_words(&node.bounds()));
            words
        }

        /// The node of such words; none where the kind or the side is unknown, since no node of the Rust has one.
        pub fn $of_node(
            [head, right_child, parent, record @ ..]: &[u32; NODE],
        ) -> Option<$side::light_bvh::LightBVHNode> {
            use $side::light_bvh::LightBVHNode::{Interior, Leaf};
            let (bounds, parent, payload) = ($of_words(record).ok()?, *parent, head & PAYLOAD);
            match head - payload {
                LEAF => Some(Leaf { light_handle: payload, bounds, parent }),
                INTERIOR => Some(Interior { left_child: payload, right_child: *right_child, bounds, parent }),
                _ => None,
            }
        }

        /// The tree of a block, written to the lent nodes, with each lamp's leaf in the lent table, k and the
        /// box in the lent answer; the lent work is left zero.
        pub fn $build(light_count: u32, block: &[u32], trays: Trays) -> Result<(), u32> {
            blocks::check_counted(light_count, block)?;
            let reserves = trees::reserves(light_count as usize);
            if trays.iter().zip(reserves).any(|(lent, reserve)| lent.len() < reserve) {
                return Err(SHORT_TRAY);
            }
            let [nodes, table, work, answer] = trays;
            let bvh = $tree(block).map_err(number);
            let words = bvh.as_ref().map(|bvh| -> Vec<u32> {
                bvh.nodes.iter().flat_map($node).chain(std::iter::repeat(0)).take(reserves[0]).collect()
            });
            lend(nodes, words.as_deref().map_err(|_| reserves[0]));
            lend(table, bvh.as_ref().map(|bvh| &bvh.handle_to_leaf[..]).map_err(|_| reserves[1]));
            lend(work, Err(reserves[2]));
            let summary = bvh.as_ref().map(|bvh| {
                let corners =
                    bvh.all_bounds.map_or([0.0; 6], |all| std::array::from_fn(|i| [all.min, all.max][i / 3][i % 3]));
                [&[bvh.bounded_handles.len() as u32], &corners.map(standins::word)[..]].concat()
            });
            lend(answer, summary.as_deref().map_err(|_| reserves[3]));
            bvh.map(|_| ())
        }
    };
}

on_blocks!(oracle, oracle_of_words, oracle_to_words, tree, node, of_node, build_light_bvh);
on_blocks!(native, native_of_words, native_to_words, native_tree, native_node, native_of_node, native_build_light_bvh);
