//! The runs of `spanning_tree`, the loops, `check_gauss_law` and `enumerate_gauge_invariant`.

use crate::case::{Tally, run};
use crate::complexes::{SQUARE, TWO_APART, pairs, path};
use crate::law::{GaussLaw, SpanningTree};
use crate::lent::{self, NO_ROOM, Room};
use crate::listing::Listing;
use crate::loops::Loops;
use crate::random::Random;
use crate::reference::{self, MOST_CANDIDATES, MOST_EDGES, MOST_LAMBDA, Sheet};
use crate::runs::QUICK_SEED;
use crate::sheets::sheet;
use crate::{complexes, configurations, inputs, rust};

const QUICK_ROUNDS: usize = 8_000;

/// A listing is asked for where its candidates are not too many.
fn list(listing: &Listing, most: u64, tally: &mut Tally) {
    if reference::to_try(&listing.sheet) <= most {
        run(listing, tally);
    }
}

/// The tree, and the loops with directions that have room and that have not.
fn tree_and_loops(bytes: &[u8], room: Room, tally: &mut Tally) {
    run(&SpanningTree { sheet: bytes.to_vec(), room }, tally);
    for spare in [0, -1, 9] {
        run(&Loops { sheet: bytes.to_vec(), room, spare }, tally);
    }
}

/// The three calls on one complex and L, with every length of lent lists that matters.
fn whole(sheet: &Sheet, tally: &mut Tally) {
    let bytes = reference::encode(sheet);
    for room in Room::ALL {
        tree_and_loops(&bytes, room, tally);
    }
    let n_edges = sheet.complex.edges.len();
    for len in [n_edges, n_edges + 1, n_edges.saturating_sub(1), 0, 2 * n_edges] {
        for value in [0, 1] {
            run(&GaussLaw { sheet: bytes.clone(), configuration: vec![value; len] }, tally);
        }
    }
    for spare in [0, 1, 700, -1, NO_ROOM] {
        list(&Listing { sheet: bytes.clone(), spare }, MOST_CANDIDATES, tally);
    }
}

/// The three calls on any bytes: with room and a right length, and without.
pub fn any_bytes(bytes: &[u8], tally: &mut Tally) {
    let n_edges = bytes.get(6).map_or(0, |&count| usize::from(count));
    for (room, len, spare) in [(Room::Ample, n_edges, 30), (Room::Nothing, 0, NO_ROOM)] {
        tree_and_loops(bytes, room, tally);
        run(&GaussLaw { sheet: bytes.to_vec(), configuration: vec![1; len] }, tally);
        list(&Listing { sheet: bytes.to_vec(), spare }, 2_500, tally);
    }
}

/// The cases of the scope paper, the ends of the ranges, and the differences from the Rust that are intended.
pub fn written_down(tally: &mut Tally) {
    for lambda in [0, 1, 2, 7, 1000] {
        for sheet in complexes::written_down(lambda) {
            whole(&sheet, tally);
        }
    }
    // the fullest complexes, and one edge too many
    for triangles in [0, 193, 194, 256] {
        for lambda in [0, 1, 1000, 1001] {
            whole(&Sheet { complex: inputs::fullest(triangles), lambda }, tally);
        }
    }
    let mut over = inputs::fullest(0);
    over.edges.push([10, 11]);
    assert_eq!(over.edges.len(), MOST_EDGES + 1);
    whole(&Sheet { complex: over, lambda: 0 }, tally);

    // two free edges: one candidate number below the limit and one over it
    let five = &pairs(4)[..5];
    for lambda in [510, 511, 512, 513] {
        for spare in [100, 0, -1] {
            list(&Listing::of(&sheet(4, five, &[], lambda), spare), MOST_CANDIDATES, tally);
        }
    }
    // the longest list of states: 65,931,327 entries
    let longest = [path(62), vec![[0, 2], [2, 4]]].concat();
    list(&Listing::of(&sheet(62, &longest, &[], 511), 5), MOST_CANDIDATES, tally);

    // sums that wrap in 32 bits, some of them to zero
    let on_square = reference::encode(&sheet(4, &SQUARE, &[], 1));
    let on_star: Vec<[u8; 2]> = (1..64).map(|vertex| [0, vertex]).collect();
    for value in [i32::MIN, i32::MAX, 1 << 30, -(1 << 30), 1 << 24, 1 << 26, -(1 << 26)] {
        for signs in 0..16 {
            let signed = |at: i32| if signs >> at & 1 == 1 { value.wrapping_neg() } else { value };
            run(&GaussLaw { sheet: on_square.clone(), configuration: (0..4).map(signed).collect() }, tally);
        }
        run(&GaussLaw { sheet: reference::encode(&sheet(64, &on_star, &[], 1)), configuration: vec![value; 63] }, tally);
    }

    // what docs/DIFFERENCES.md says of the Rust: 1 and 3
    let wrapping = rust::filled(&sheet(4, &SQUARE, &[], 1).complex);
    assert!(phyz_quantum::gauss_law::check_gauss_law(&wrapping, &[i32::MIN; 4]), "the Rust no longer wraps");
    let apart = sheet(6, &TWO_APART, &[], 1).complex;
    assert_eq!(rust::enumerate_gauge_invariant(&apart, 1).len(), 81, "the Rust no longer lists two parts");
}

/// Every small graph in three orders with L 0 to 2.
pub fn small_graphs(tally: &mut Tally) {
    complexes::small_graphs(|_, sheet, random| small_graph(sheet, random, tally));
}

fn small_graph(sheet: &Sheet, random: &mut Random, tally: &mut Tally) {
    let bytes = reference::encode(sheet);
    let spare = random.pick(&[0, 1, 40]);
    list(&Listing { sheet: bytes.clone(), spare }, MOST_CANDIDATES, tally);
    list(&Listing { sheet: bytes.clone(), spare: -1 }, 500, tally);
    for room in if sheet.lambda == 1 { &Room::ALL[..] } else { &Room::ALL[..1] } {
        tree_and_loops(&bytes, *room, tally);
    }
    if reference::read_sheet(&bytes).is_err() {
        run(&GaussLaw { sheet: bytes, configuration: vec![0; sheet.complex.edges.len()] }, tally);
        return;
    }
    // every listed state is lawful; with one value changed it is not
    let states = rust::enumerate_gauge_invariant(&sheet.complex, sheet.lambda);
    for state in states.iter().step_by(1 + states.len() / 20) {
        run(&GaussLaw { sheet: bytes.clone(), configuration: state.clone() }, tally);
        for at in 0..state.len() {
            let mut other = state.clone();
            other[at] += random.pick(&[1, -1, 2]);
            run(&GaussLaw { sheet: bytes.clone(), configuration: other }, tally);
        }
    }
}

/// Every number of free edges with the L that matter: 0, 1, the largest that the limit lets pass, and all beyond it.
pub fn limits(tally: &mut Tally) {
    let mut random = Random::new(QUICK_SEED);
    for free in 0..=52_u64 {
        for (at, vertices) in complexes::sizes(&mut random, free).into_iter().enumerate() {
            let complex = inputs::complex_with(&mut random, vertices, free);
            assert_eq!(complex.edges.len() as u64, vertices - 1 + free, "the generator gave up");
            let largest = reference::largest_lambda(free as usize, MOST_CANDIDATES);
            let mut some =
                vec![0, 1, largest, largest + 1, largest + 2, random.between(largest, MOST_LAMBDA), MOST_LAMBDA, MOST_LAMBDA + 1];
            some.sort_unstable();
            some.dedup();
            for lambda in some {
                let sheet = Sheet { complex: complex.clone(), lambda };
                tree_and_loops(&reference::encode(&sheet), random.pick(&Room::ALL), tally);
                list(&Listing::of(&sheet, random.pick(&[0, 1, 100])), MOST_CANDIDATES, tally);
                list(&Listing::of(&sheet, -1), 50_000, tally);
            }
            if at == 0 {
                for lambda in largest + 1..=MOST_LAMBDA {
                    list(&Listing::of(&Sheet { complex: complex.clone(), lambda }, 0), MOST_CANDIDATES, tally);
                }
            }
        }
    }
}

pub fn random_rounds(tally: &mut Tally) {
    let mut random = Random::new(QUICK_SEED);
    for round in 0..QUICK_ROUNDS {
        random_round(&mut random, if round % 600 == 0 { MOST_CANDIDATES } else { 3_000 }, tally);
    }
}

/// A complex with a few configurations and lists of states of up to so many candidates, then damaged sheets.
pub fn random_round(random: &mut Random, most: u64, tally: &mut Tally) {
    let complex = complexes::any(random);
    let mut sheet = Sheet { complex, lambda: random.below(MOST_LAMBDA + 1) };
    let bytes = reference::encode(&sheet);
    tree_and_loops(&bytes, random.pick(&Room::ALL), tally);
    for _ in 0..6 {
        run(&GaussLaw { sheet: bytes.clone(), configuration: configurations::any_length(random, &sheet.complex) }, tally);
    }
    let free = sheet.complex.free_edges();
    let affordable = reference::largest_lambda(free, most);
    let largest = reference::largest_lambda(free, MOST_CANDIDATES);
    for lambda in [affordable, random.below(affordable + 1), largest + 1, random.between(largest, MOST_LAMBDA + 1)] {
        sheet.lambda = lambda;
        list(&Listing::of(&sheet, lent::any_spare(random)), most, tally);
    }
    any_bytes(&inputs::any_sheet_bytes(random), tally);
}
