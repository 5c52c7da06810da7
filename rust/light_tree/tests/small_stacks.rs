//! Trees are built whatever stack the caller has: the deepest there are, on threads with little; and where there is no
//! thread to build on, that is an error.

use light_tree::*;
use std::process::Command;
use std::thread;

/// Lamps whose tree is as deep as can be. No other's cost shows beside the first one's, a huge box, so every cut costs
/// the same and the first bucket is cut off. The others stand along the axes, each 1.098 times as far out as the next,
/// which is more than 12/11: so that bucket has one lamp.
fn deepest(lamps: usize) -> Vec<LightBounds> {
    let (size, along) = (2f32.powi(58), lamps.div_ceil(3));
    let other = |i: usize| {
        let mut place = [0.0; 3];
        place[i / along] = (f64::from(-size) * 1.098f64.powi(-1 - (i % along) as i32)) as f32;
        LightBounds::new(Bounds3 { min: place, max: place }, 2f32.powi(-60))
    };
    let first = LightBounds::new(Bounds3 { min: [-size; 3], max: [size; 3] }, 2f32.powi(-10));
    [first].into_iter().chain((0..lamps - 1).map(other)).collect()
}

/// How many forks lie above the deepest node.
fn depth(tree: &LightTree) -> usize {
    let mut depths: Vec<usize> = Vec::new();
    tree.nodes().for_each(|node| depths.push(depths.get(node.parent() as usize).map_or(0, |above| above + 1)));
    depths.into_iter().max().unwrap_or(0)
}

fn on_stack<T: Send>(bytes: usize, call: impl FnOnce() -> T + Send) -> T {
    thread::scope(|scope| thread::Builder::new().stack_size(bytes).spawn_scoped(scope, call).unwrap().join().unwrap())
}

/// 4,095 forks take 1.6 MB, 999 of them 400 kB, 127 of them 51 kB.
#[test]
fn deepest_trees() {
    let bounds = deepest(MAX_LAMPS);
    assert_eq!(on_stack(256 << 10, || LightTree::build(&bounds)).map(|tree| depth(&tree)), Ok(MAX_LAMPS - 1));
    for (lamps, stack) in [(1000, 256 << 10), (129, 64 << 10), (128, 64 << 10)] {
        let bounds = deepest(lamps);
        let tree = on_stack(stack, || LightTree::build(&bounds)).unwrap();
        assert_eq!(depth(&tree), lamps - 1);
        let block = Block::new(&bounds).unwrap();
        assert_eq!(on_stack(stack, || LightTree::from_block(block.words())).as_ref(), Ok(&tree));
        assert_eq!(on_stack(stack, || pbrt::build_light_bvh(&bounds, &bounds)).unwrap().as_ref(), &tree);
    }
}

/// Refusals come from that thread as from this one.
#[test]
fn refusals() {
    let mut bounds = deepest(MAX_LAMPS);
    bounds[4000].phi = -1.0;
    assert_eq!(LightTree::build(&bounds), Err(Refusal::OutOfRange));
    bounds[3000].direction = [0.0; 3];
    assert_eq!(LightTree::build(&bounds), Err(Refusal::NoDirection));
}

/// What this program does where memory is scarce: takes all but a MiB of it, and then builds.
fn build_without_memory() {
    let bounds = deepest(200);
    let mut taken: Vec<Vec<u8>> = Vec::with_capacity(1 << 12);
    loop {
        let mut more = Vec::new();
        if more.try_reserve_exact(1 << 20).is_err() {
            break;
        }
        taken.push(more);
    }
    assert!(taken.pop().is_some() && taken.len() > 16);
    let (many, few) = (LightTree::build(&bounds), LightTree::build(&bounds[..128]));
    drop(taken);
    assert_eq!((many.clone(), many.unwrap_err().number()), (Err(Refusal::NoThread), 0));
    assert_eq!(few.map(|tree| tree.powered()), Ok(128));
    assert_eq!(LightTree::build(&bounds).map(|tree| tree.powered()), Ok(200));
}

/// The program runs itself once more, with less than 300 MB to have.
#[test]
fn no_thread() {
    const SCARCE: &str = "LIGHT_TREE_MEMORY_IS_SCARCE";
    if std::env::var_os(SCARCE).is_some() {
        return build_without_memory();
    }
    let itself = std::env::current_exe().unwrap();
    let again = ["-c", "ulimit -v 300000 && exec \"$0\" --exact no_thread"];
    let ended = Command::new("sh").args(again).arg(itself).env(SCARCE, "1").output().unwrap();
    let told = String::from_utf8_lossy(&ended.stdout);
    assert!(ended.status.success() && told.contains("1 passed"), "{told}");
}
