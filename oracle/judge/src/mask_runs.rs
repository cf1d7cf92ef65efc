//! The runs of `su2_basis`.

use crate::case::{Tally, run};
use crate::complexes::{self, TWO_APART, pairs, path};
use crate::inputs;
use crate::lent::{self, NO_ROOM};
use crate::masks::Masks;
use crate::random::Random;
use crate::reference::{self, Complex, HEADER, MOST_EDGES, MOST_LAMBDA, Sheet};
use crate::runs::QUICK_SEED;
use crate::rust::Su2Space;
use crate::sheets::sheet;

const QUICK_ROUNDS: usize = 6_000;

/// 2^20 masks are listed, 2^21 are too many.
pub const MOST_FREE: u64 = 20;

/// No more edges can be free.
const ALL_FREE: u64 = 52;

/// Every length of the lent list that matters.
const SPARES: [i64; 5] = [0, 1, 700, -1, NO_ROOM];

// ---- written down

/// The cases of the scope paper, the ends of the ranges, and the difference from the Rust that is intended.
pub fn written_down(tally: &mut Tally) {
    for lambda in [0, 1, 7, MOST_LAMBDA, MOST_LAMBDA + 1, 65_535] {
        for sheet in complexes::written_down(lambda) {
            for spare in SPARES {
                run(&Masks::of(&sheet, spare), tally);
            }
        }
    }
    longest(tally);
    two_faults(tally);

    // what docs/DIFFERENCES.md says of the Rust under 3
    let apart = sheet(6, &TWO_APART, &[], 1).complex;
    let space = Su2Space::new(&apart);
    assert_eq!(space.states().len(), 16, "the Rust no longer lists two parts");
    let even: Vec<u64> = space.states().iter().copied().filter(|&mask| reference::even(&apart, mask)).collect();
    assert_eq!(even.len(), 4, "the Rust lists two parts in another way");
    assert_eq!(even, reference::masks(&apart));
}

/// 2^20 masks, some with bit 62, and 2^21, which are refused even where they would fit.
fn longest(tally: &mut Tally) {
    let shortcuts = |count: u8| (0..count).map(|at| [2 * at, 2 * at + 2]);
    let chain: Vec<[u8; 2]> = path(44).into_iter().chain(shortcuts(20)).collect();
    assert_eq!(chain.len(), MOST_EDGES);
    // the highest edge is free, or in the tree and in a cycle, or in no cycle at all
    let turned: Vec<[u8; 2]> = chain.iter().rev().copied().collect();
    let mut bridge = chain.clone();
    bridge.swap(42, 62);
    for (edges, used) in [(&chain, true), (&turned, true), (&bridge, false)] {
        // an edge is in a cycle where all is still in one part without it
        let without = reference::encode(&sheet(44, &edges[..62], &[], 3));
        assert_eq!(reference::read_sheet(&without).is_ok(), used);
        for spare in [5, -1, NO_ROOM] {
            run(&Masks::of(&sheet(44, edges, &[], 3), spare), tally);
        }
    }
    // all edges but one on eight vertices, and all
    for (edges, spares) in [(27, [0, -1, NO_ROOM]), (28, [1 << 21, 0, NO_ROOM])] {
        let edges = &pairs(8)[..edges];
        for spare in spares {
            run(&Masks::of(&sheet(8, edges, &inputs::closed(edges), 1), spare), tally);
        }
    }
}

/// Sheets with each fault and with every two of them, few masks and too many, with room and without: so the order of the refusals shows.
fn two_faults(tally: &mut Tally) {
    let faults: [fn(&mut Vec<u8>); 12] = [
        |bytes| bytes[2] = b'T',
        |bytes| bytes[4] = 1,
        |bytes| bytes[5] = 0,
        |bytes| bytes[6] = 64,
        |bytes| bytes[8] = 2,
        |bytes| bytes[9..HEADER].copy_from_slice(&1001_u16.to_le_bytes()),
        |bytes| bytes.push(0),
        |bytes| bytes.swap(HEADER, HEADER + 1),
        |bytes| bytes.copy_within(HEADER..HEADER + 2, HEADER + 2),
        |bytes| {
            let end = bytes.len();
            bytes.swap(end - 2, end - 1);
        },
        |bytes| bytes[5] += 1,
        |bytes| bytes.truncate(HEADER - 1),
    ];
    let (few, many) = (pairs(3), pairs(8));
    let sheets = [
        sheet(3, &few, &inputs::closed(&few), 1),
        sheet(8, &many, &inputs::closed(&many), 1),
        Sheet { complex: inputs::fullest(193), lambda: 1 },
    ];
    for bytes in sheets.iter().map(reference::encode) {
        for one in 0..faults.len() {
            for other in one..faults.len() {
                let mut damaged = bytes.clone();
                faults[one](&mut damaged);
                if other > one {
                    faults[other](&mut damaged);
                }
                for spare in SPARES {
                    run(&Masks { sheet: damaged.clone(), spare }, tally);
                }
            }
        }
    }
}

// ---- any bytes

/// With room and without.
pub fn any_bytes(bytes: &[u8], tally: &mut Tally) {
    if reference::masks_to_write(bytes) > 300 {
        return;
    }
    for spare in [30, NO_ROOM] {
        run(&Masks { sheet: bytes.to_vec(), spare }, tally);
    }
}

// ---- small graphs

/// Every small graph in three orders with L 0 to 2, which plays no part.
pub fn small_graphs(tally: &mut Tally) {
    complexes::small_graphs(|_, sheet, random| {
        for spare in [random.pick(&[0, 1, 40]), -1, NO_ROOM] {
            run(&Masks::of(sheet, spare), tally);
        }
    });
}

// ---- numbers of free edges

/// Every number of free edges, those that are too many as well.
pub fn limits(tally: &mut Tally) {
    let mut random = Random::new(QUICK_SEED);
    for free in 0..=ALL_FREE {
        for vertices in complexes::sizes(&mut random, free) {
            let complex = inputs::complex_with(&mut random, vertices, free);
            assert_eq!(complex.edges.len() as u64, vertices - 1 + free, "the generator gave up");
            let sheet = Sheet { complex, lambda: random.below(MOST_LAMBDA + 1) };
            for spare in [random.pick(&[0, 1, 100]), -1, NO_ROOM] {
                run(&Masks::of(&sheet, spare), tally);
            }
        }
    }
}

// ---- random inputs

pub fn random_rounds(tally: &mut Tally) {
    let mut random = Random::new(QUICK_SEED);
    for round in 0..QUICK_ROUNDS {
        random_round(&mut random, if round % 600 == 0 { MOST_FREE } else { 11 }, tally);
    }
}

/// A complex with up to so many free edges, one with too many, and damaged sheets.
pub fn random_round(random: &mut Random, most: u64, tally: &mut Tally) {
    for free in [random.below(most + 1), random.between(MOST_FREE + 1, ALL_FREE)] {
        let lambda = if random.one_in(20) { MOST_LAMBDA + 1 } else { random.below(MOST_LAMBDA + 1) };
        let sheet = Sheet { complex: any_complex(random, free), lambda };
        run(&Masks::of(&sheet, lent::any_spare(random)), tally);
    }
    any_bytes(&inputs::any_sheet_bytes(random), tally);
}

/// With so many free edges: often 63 edges in all, or few vertices.
pub fn any_complex(random: &mut Random, free: u64) -> Complex {
    let (fewest, most) = (complexes::fewest_vertices(free), 64 - free);
    let vertices = match random.below(3) {
        0 => most,
        1 => random.between(fewest, most),
        _ => random.between(fewest, most.min(fewest + 5)),
    };
    inputs::complex_with(random, vertices, free)
}
