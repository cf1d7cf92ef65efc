//! The runs of `build_hamiltonian` and `build_su2_hamiltonian`.

use crate::basis::{Basis, Given};
use crate::case::{Tally, run};
use crate::complexes::{self, pairs, path};
use crate::couplings::{self, Coupling, ENDS, Mode};
use crate::dense::{Ask, Dense, Matrix};
use crate::lent::NO_ROOM;
use crate::masks::EvenSets;
use crate::random::Random;
use crate::reference::{self, Complex, MOST_CANDIDATES, MOST_LAMBDA, Sheet};
use crate::runs::QUICK_SEED;
use crate::rust::Space;
use crate::sheets::sheet;
use crate::weights::{self, MOST, Weights};
use crate::{floats, inputs, mask_runs};

const QUICK_ROUNDS: usize = 5_000;

/// Every two lengths of the work list and the result that matter.
const SPARES: [[i64; 2]; 6] = [[13, 17], [0, 0], [-1, 17], [13, -1], [-1, -1], [NO_ROOM; 2]];

fn dense<B: Matrix>(given: &Given<B>, coupling: Coupling, weights: &Weights, spares: [i64; 2], tally: &mut Tally) {
    run(&Dense { given: given.clone(), ask: Ask { coupling, weights: weights.clone(), spares } }, tally);
}

// ---- written down

/// The matrices of the scope paper, and everything that can be wrong on its complexes.
pub fn written_down(tally: &mut Tally) {
    stated_matrices(tally);
    for lambda in [0, 1, 2, MOST_LAMBDA + 1] {
        for sheet in complexes::written_down(lambda) {
            combinations::<Basis>(&sheet, tally);
            combinations::<EvenSets>(&sheet, tally);
        }
    }
    // too many candidates for U(1), for the masks, and for both
    let five = sheet(4, &pairs(4)[..5], &[[0, 1, 2]], 512);
    for sheet in [five, Sheet { complex: inputs::fullest(193), lambda: 0 }, Sheet { complex: inputs::fullest(193), lambda: 1 }] {
        combinations::<Basis>(&sheet, tally);
        combinations::<EvenSets>(&sheet, tally);
    }

    // what docs/DIFFERENCES.md says of the Rust under 4 and 10
    let space = Space::new(&triangle().complex, 1);
    let surplus = space.build_hamiltonian(1.0, Some(&[1.0, 7.0]));
    assert!(floats::same(&surplus, &space.build_hamiltonian(1.0, None)), "the Rust no longer ignores surplus weights");
    assert_eq!(space.build_hamiltonian(0.0, None)[1], f64::NEG_INFINITY, "the Rust no longer takes g² 0");
}

/// The scope paper's.
pub fn triangle() -> Sheet {
    sheet(3, &pairs(3), &[[0, 1, 2]], 1)
}

/// The triangle's matrices that the scope paper has, two of its traps, and the ends of both ranges at once.
fn stated_matrices(tally: &mut Tally) {
    // of each matrix what stands on the diagonal, where it is not 0, and beside it
    let mut both = |g_squared: f64, weights: Weights, [on, off]: [f64; 2], [su2_on, su2_off]: [f64; 2]| {
        stated::<Basis>(g_squared, &weights, &[on, off, 0.0, off, 0.0, off, 0.0, off, on], tally);
        stated::<EvenSets>(g_squared, &weights, &[0.0, su2_off, su2_off, su2_on], tally);
    };
    both(1.0, Weights::absent(), [1.5, -0.5], [1.125, -0.5]);
    both(1.0, Weights::of(vec![1.0]), [1.5, -0.5], [1.125, -0.5]);
    // the product with the weight comes before that with 0.5
    let least = Weights::of(vec![floats::power(-1071)]);
    both(3.0, least, [4.5, -floats::power(-1073)], [3.375, -floats::power(-1074)]);
    // a weight of 0 leaves 0.0, whatever its sign
    for none in [0.0, -0.0] {
        both(1.0, Weights::of(vec![none]), [1.5, 0.0], [1.125, 0.0]);
    }
    let (small, large) = (ENDS[0], floats::power(63));
    both(small, Weights::of(vec![MOST]), [1.5 * small, -large], [1.125 * small, -large]);
    both(small, Weights::of(vec![-MOST]), [1.5 * small, large], [1.125 * small, large]);
}

/// The Rust gives the triangle this matrix, bit by bit, and so must the port.
fn stated<B: Matrix>(g_squared: f64, weights: &Weights, rows: &[f64], tally: &mut Tally) {
    for spares in [[0, 0], [13, 17]] {
        let ask = Ask { coupling: B::MODE.params(g_squared), weights: weights.clone(), spares };
        let case = Dense { given: Given::<B>::of(&triangle()), ask };
        let matrix = case.matrix(case.given.accepted().expect("one part, within the limit")).expect("by the definition");
        assert!(floats::same(&matrix, rows), "the Rust no longer gives {}", floats::show(rows));
        run(&case, tally);
    }
}

/// Every coupling with all weights and all lengths, on one sheet.
fn combinations<B: Matrix>(sheet: &Sheet, tally: &mut Tally) {
    let given = Given::<B>::of(sheet);
    for coupling in some_couplings(B::MODE) {
        for weights in some_weights(sheet.complex.triangles.len()) {
            for spares in SPARES {
                dense(&given, coupling, &weights, spares, tally);
            }
        }
    }
}

/// Right ones, and one for each thing that can be wrong.
pub fn some_couplings(mode: Mode) -> Vec<Coupling> {
    let [g_squared, electric, magnetic] = mode.params(1.0);
    let mut some =
        [1.0, ENDS[0], ENDS[1], ENDS[0].next_down(), ENDS[1].next_up(), -1.0].map(|g_squared| mode.params(g_squared)).to_vec();
    some.push(mode.other().params(1.0));
    some.extend([[f64::NAN; 3], [g_squared, f64::NAN, magnetic], [g_squared, electric, f64::NAN]]);
    some.extend([[g_squared.next_up(), electric, magnetic], [g_squared, electric, magnetic.next_up()]]);
    some
}

/// Absent, with nothing and with rubbish beside them; too few, too many; right ones, and each with a fault at one end.
pub fn some_weights(n_triangles: usize) -> Vec<Weights> {
    let rubbish = vec![f64::NAN; n_triangles + 1];
    let mut some = vec![Weights::absent(), Weights { given: false, list: rubbish.clone() }, Weights::of(rubbish)];
    for len in [n_triangles, n_triangles + 1, n_triangles.saturating_sub(1), 0, 2 * n_triangles] {
        some.push(Weights::of(vec![0.75; len]));
    }
    for outside in weights::OUTSIDE {
        let mut list = vec![0.75; n_triangles];
        if let Some(first) = list.first_mut() {
            *first = outside;
        }
        some.push(Weights::of(list.clone()));
        list.reverse();
        some.push(Weights::of(list));
    }
    some
}

// ---- long lists

/// Matrices of up to four million entries, and ones that no list could hold.
pub fn large(tally: &mut Tally) {
    let mut random = Random::new(QUICK_SEED);
    for (vertices, lambda) in [(3, MOST_LAMBDA), (4, 5), (5, 1)] {
        let edges = pairs(vertices);
        exact::<Basis>(&sheet(vertices.into(), &edges, &inputs::closed(&edges), lambda), &mut random, tally);
    }
    for vertices in [5, 6] {
        let edges = pairs(vertices);
        exact::<EvenSets>(&sheet(vertices.into(), &edges, &inputs::closed(&edges), 1), &mut random, tally);
    }
    let complex = inputs::complex_with(&mut random, 40, 11);
    exact::<EvenSets>(&Sheet { complex, lambda: 1 }, &mut random, tally);
    beyond(&mut random, tally);
}

/// Lists that are just long enough, and ones that are too short by one entry.
fn exact<B: Matrix>(sheet: &Sheet, random: &mut Random, tally: &mut Tally) {
    let given = Given::<B>::of(sheet);
    for spares in [[0, 0], [-1, 0], [0, -1]] {
        let weights = Weights::of(weights::right(random, sheet.complex.triangles.len()));
        dense(&given, B::MODE.params(couplings::any_g_squared(random)), &weights, spares, tally);
    }
}

/// States whose number times itself does not fit 32 bits: 1023² of them, and 2^16 and 2^20 masks.
fn beyond(random: &mut Random, tally: &mut Tally) {
    let two_loops = [path(5), vec![[0, 2], [2, 4]]].concat();
    too_short::<Basis>(&sheet(5, &two_loops, &[[0, 1, 2]], 511), tally);
    let complex = inputs::complex_with(random, 20, 16);
    too_short::<EvenSets>(&Sheet { complex, lambda: 1 }, tally);
    too_short::<EvenSets>(&sheet(8, &pairs(8)[..27], &[[0, 1, 2]], 1), tally);
}

/// A result list that would be long enough if the number of entries were cut to 32 bits.
fn too_short<B: Matrix>(sheet: &Sheet, tally: &mut Tally) {
    let given = Given::<B>::of(sheet);
    let entries = given.accepted().expect("one part, within the limit").count().pow(2);
    for length in [0, 1, entries & 0xFFFF_FFFF, (entries & 0xFFFF_FFFF) + 5] {
        dense(&given, B::MODE.params(1.0), &Weights::absent(), [0, length as i64 - entries as i64], tally);
    }
}

// ---- any bytes

/// Both calls on any bytes.
pub fn any_bytes(bytes: &[u8], tally: &mut Tally) {
    if reference::to_try(bytes) <= 100 {
        all_or_nothing::<Basis>(bytes, tally);
    }
    if reference::masks_to_write(bytes) <= 100 {
        all_or_nothing::<EvenSets>(bytes, tally);
    }
}

/// With nothing else wrong, and with everything.
fn all_or_nothing<B: Matrix>(bytes: &[u8], tally: &mut Tally) {
    let given = Given::<B>::new(bytes.to_vec());
    dense(&given, B::MODE.params(3.0), &Weights::absent(), [13, 17], tally);
    dense(&given, [f64::NAN; 3], &Weights::of(vec![f64::NAN; 300]), [NO_ROOM; 2], tally);
}

// ---- small graphs

/// Every small graph in three orders with L 0 to 2; the masks once for all L.
pub fn small_graphs(tally: &mut Tally) {
    complexes::small_graphs(|_, sheet, random| {
        if reference::to_try(&reference::encode(sheet)) <= 729 {
            calls::<Basis>(sheet, 2, random, tally);
        }
        if sheet.lambda == 0 {
            calls::<EvenSets>(sheet, 3, random, tally);
        }
    });
}

// ---- random inputs

pub fn random_rounds(tally: &mut Tally) {
    let mut random = Random::new(QUICK_SEED);
    for round in 0..QUICK_ROUNDS {
        random_round(&mut random, if round % 300 == 0 { 2_000 } else { 250 }, tally);
    }
}

/// A few calls on complexes with up to so many candidates, on one past the limit, and on damaged sheets.
pub fn random_round(random: &mut Random, most: u64, tally: &mut Tally) {
    let free = random.below(7);
    let lambda = reference::largest_lambda(free as usize, most);
    let lambda = if random.one_in(3) { random.below(lambda + 1) } else { lambda };
    calls::<Basis>(&Sheet { complex: any_complex(random, free), lambda }, 2, random, tally);

    let free = random.below(u64::from(most.ilog2()) + 1);
    calls::<EvenSets>(&Sheet { complex: any_complex(random, free), lambda: 1 }, 2, random, tally);

    // all triangles that there can be, on the one state of L 0; past the limit with a higher L, and for the masks
    let mut sheet = Sheet { complex: complexes::any(random), lambda: 0 };
    calls::<Basis>(&sheet, 1, random, tally);
    sheet.lambda = random.between(reference::largest_lambda(sheet.complex.free_edges(), MOST_CANDIDATES), MOST_LAMBDA + 1);
    for bytes in [reference::encode(&sheet), inputs::any_sheet_bytes(random)] {
        any_bytes(&bytes, tally);
    }
}

/// With so many free edges, mostly on few vertices, so that many loops are triangles.
pub fn any_complex(random: &mut Random, free: u64) -> Complex {
    if random.one_in(4) {
        return mask_runs::any_complex(random, free);
    }
    let fewest = complexes::fewest_vertices(free);
    let vertices = random.between(fewest, fewest + 2);
    inputs::complex_with(random, vertices, free)
}

/// So many calls with any coupling and weights, mostly right, and lists of any length, mostly long enough.
fn calls<B: Matrix>(sheet: &Sheet, how_many: usize, random: &mut Random, tally: &mut Tally) {
    let given = Given::<B>::of(sheet);
    for _ in 0..how_many {
        let weights = weights::any(random, sheet.complex.triangles.len());
        let spares =
            if random.one_in(10) { random.pick(&SPARES) } else { [random.below(70), random.below(70)].map(|spare| spare as i64) };
        dense(&given, couplings::any_coupling(random, B::MODE), &weights, spares, tally);
    }
}
