//! Draws lamps for a bench from a room of two bulbs, a spot and a panel: that of `examples/room.txt`.
//!
//!     cargo run --release --offline --manifest-path rust/Cargo.toml -p light_tree --example room

use light_tree::{Lamp, LightTree, Refusal, Triangle};

fn bulb(world_position: [f32; 3], scale: f32) -> Lamp {
    Lamp::Point { world_position, intensity_max: 3.0, scale }
}

/// A luminous rectangle that faces down, as two triangles.
fn panel([x, y, z]: [f32; 3], [width, depth]: [f32; 2]) -> Lamp {
    let corner = |i: f32, j: f32| [x + i * width / 2.0, y + j * depth / 2.0, z];
    let [a, b, c, d] = [corner(-1.0, -1.0), corner(1.0, -1.0), corner(1.0, 1.0), corner(-1.0, 1.0)];
    let half =
        |world_positions| Triangle { world_positions, area: width * depth / 2.0, geometric_normal: [0.0, 0.0, -1.0] };
    Lamp::Group { triangles: vec![half([a, b, c]), half([a, c, d])], emission_max: 8.0, scale: 1.0, two_sided: false }
}

fn main() -> Result<(), Refusal> {
    let spot = Lamp::Spot {
        world_position: [0.4, 0.3, 2.2],
        direction: [0.0, 0.0, -1.0],
        intensity_max: 40.0,
        scale: 1.0,
        cos_theta_o: 0.9063078,
        cos_falloff_end: 0.819152,
    };
    let room = [bulb([-1.2, 0.8, 1.9], 1.0), bulb([1.2, 0.8, 1.9], 0.5), spot, panel([0.0, 0.0, 2.4], [1.2, 0.4])];
    let names = ["the left bulb", "the right bulb", "the spot", "the panel"];

    let tree = LightTree::of_lamps(&room)?;
    let (bench, up) = ([0.3, 0.2, 0.9], [0.0, 0.0, 1.0]);
    for u in [0.0, 0.2, 0.4, 0.6, 0.8, 1.0] {
        match tree.sample(bench, up, u)? {
            Some((lamp, chance)) => println!("u {u}: {} with chance {chance}", names[lamp as usize]),
            None => println!("u {u}: nothing shines on the bench"),
        }
    }
    for (handle, name) in (0..).zip(names) {
        println!("{name}: {}", tree.pmf(bench, up, handle)?);
    }
    Ok(())
}
