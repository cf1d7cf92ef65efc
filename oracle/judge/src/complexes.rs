//! Complexes that several runs go through: ones that were written down, every small graph, and random ones.

use crate::inputs;
use crate::random::Random;
use crate::reference::{Complex, Sheet};
use crate::runs::QUICK_SEED;
use crate::sheets::sheet;

pub const SQUARE: [[u8; 2]; 4] = [[0, 1], [1, 2], [2, 3], [0, 3]];
pub const TWO_APART: [[u8; 2]; 6] = [[0, 1], [0, 2], [1, 2], [3, 4], [3, 5], [4, 5]];

/// All pairs of the first vertices in dictionary order.
pub fn pairs(vertices: u8) -> Vec<[u8; 2]> {
    (0..vertices).flat_map(|a| (a + 1..vertices).map(move |b| [a, b])).collect()
}

pub fn path(vertices: u8) -> Vec<[u8; 2]> {
    (1..vertices).map(|vertex| [vertex - 1, vertex]).collect()
}

/// The complexes of the scope paper and the ends of the ranges, with an L.
pub fn written_down(lambda: u64) -> Vec<Sheet> {
    vec![
        sheet(1, &[], &[], lambda),
        sheet(2, &pairs(2), &[], lambda),
        sheet(3, &pairs(3), &[[0, 1, 2]], lambda),
        sheet(3, &[[1, 2], [0, 2], [0, 1]], &[], lambda),
        sheet(4, &pairs(4), &inputs::closed(&pairs(4)), lambda),
        sheet(4, &SQUARE, &[], lambda),
        sheet(64, &path(64), &[], lambda),
        sheet(64, &path(64).into_iter().rev().collect::<Vec<_>>(), &[], lambda),
        sheet(64, &(1..64).map(|vertex| [0, vertex]).collect::<Vec<_>>(), &[], lambda),
        sheet(64, &(0..63).map(|vertex| [vertex, 63]).collect::<Vec<_>>(), &[], lambda),
        sheet(6, &TWO_APART, &[[0, 1, 2], [3, 4, 5]], lambda),
        sheet(2, &[], &[], lambda),
        sheet(0, &[], &[], lambda),
        sheet(65, &path(64), &[], lambda),
    ]
}

/// Every graph on up to five vertices, its edges in dictionary order (0) and in two others (1, 2), with L 0 to 2. It has all its triangles,
/// but none in order 1.
pub fn small_graphs(mut visit: impl FnMut(usize, &Sheet, &mut Random)) {
    let mut random = Random::new(QUICK_SEED);
    for vertices in 1..=5_u8 {
        let pairs = pairs(vertices);
        for mask in 0..1_u32 << pairs.len() {
            let mut edges: Vec<[u8; 2]> = (0..pairs.len()).filter(|&at| mask >> at & 1 == 1).map(|at| pairs[at]).collect();
            for order in 0..3 {
                if order > 0 {
                    random.shuffle(&mut edges);
                }
                let triangles = if order == 1 { vec![] } else { inputs::closed(&edges) };
                for lambda in 0..=2 {
                    visit(order, &sheet(vertices.into(), &edges, &triangles, lambda), &mut random);
                }
            }
        }
    }
}

/// The fewest vertices that bear so many free edges.
pub fn fewest_vertices(free: u64) -> u64 {
    (1..=12).find(|vertices| vertices * (vertices - 1) / 2 >= vertices - 1 + free).expect("12 vertices bear 63 edges")
}

/// Numbers of vertices to try with so many free edges: the fewest, a few more, and many.
pub fn sizes(random: &mut Random, free: u64) -> Vec<u64> {
    let (fewest, most) = (fewest_vertices(free), 64 - free);
    let mut sizes = vec![fewest, random.between(fewest, most.min(12))];
    if most >= 40 {
        sizes.push(if random.one_in(2) { most } else { random.between(40, most) });
    }
    sizes
}

/// Often few vertices, or so many that few edges can be free.
pub fn any(random: &mut Random) -> Complex {
    let vertices = match random.below(6) {
        0 | 1 => random.between(40, 64),
        2 => random.between(1, 64),
        _ => random.between(1, 12),
    };
    let most = 64 - vertices;
    let free = if random.one_in(4) { random.below(most + 1) } else { random.below(most.min(7) + 1) };
    inputs::complex_with(random, vertices, free)
}
