//! The runs of `su2_hamiltonian_matvec`, `su2_wilson_loop` and `su2_wilson_passes`.

use crate::basis::Given;
use crate::case::{Tally, run};
use crate::complexes::{self, pairs};
use crate::couplings::{self, Coupling};
use crate::dense::{Ask, Matrix};
use crate::dense_runs::{any_complex, some_couplings, some_weights, triangle};
use crate::entries::{self, Reading};
use crate::even_products::{EvenLoop, EvenProduct};
use crate::lent::{self, NO_ROOM};
use crate::masks::EvenSets;
use crate::random::Random;
use crate::reference::{self, Sheet};
use crate::runs::QUICK_SEED;
use crate::sheets::sheet;
use crate::weights::{self, MOST, Weights};
use crate::{floats, inputs};

const QUICK_ROUNDS: usize = 5_000;

/// Every two lengths of the work list and the result that matter.
const SPARES: [[i64; 2]; 6] = [[13, 17], [0, 0], [-1, 17], [13, -1], [-1, -1], [NO_ROOM; 2]];

fn product(given: &Given<EvenSets>, coupling: Coupling, weights: &Weights, vector: &[f64], spares: [i64; 2], tally: &mut Tally) {
    let ask = Ask { coupling, weights: weights.clone(), spares };
    run(&EvenProduct { given: given.clone(), ask, vector: vector.to_vec() }, tally);
}

/// By the set of the path's edges, and by its passes.
fn expectations(given: &Given<EvenSets>, vector: &[f64], path: &[u8], spare: i64, tally: &mut Tally) {
    for reading in [Reading::EdgeSet, Reading::Passes] {
        run(&EvenLoop { reading, given: given.clone(), vector: vector.to_vec(), path: path.to_vec(), spare }, tally);
    }
}

/// How many amplitudes a sheet needs, or a few.
fn count(given: &Given<EvenSets>) -> usize {
    given.accepted().map_or(5, EvenSets::count)
}

/// Ends of the range, what is just past them, and what is next to nothing, at the first place and at the last; one too many, one too few.
fn some_vectors(count: usize) -> Vec<Vec<f64>> {
    let mut some = vec![vec![], vec![0.75; count + 1], vec![0.75; count.saturating_sub(1)], vec![f64::NAN; count + 1]];
    let within = [1.0, MOST, -MOST, 0.0, -0.0, floats::power(-1074), -floats::power(-1022)];
    for amplitude in weights::OUTSIDE.into_iter().chain(within) {
        let mut vector = vec![0.75; count];
        vector[0] = amplitude;
        some.push(vector.clone());
        vector.reverse();
        some.push(vector);
        some.push(vec![amplitude; count]);
    }
    some
}

/// Of so many edges: none, each once, one twice and more often, all of them many times; then the first that is not there, at either end.
fn some_paths(edges: usize) -> Vec<Vec<u8>> {
    let all: Vec<u8> = (0..edges as u8).collect();
    let mut some: Vec<Vec<u8>> = all.iter().map(|&edge| vec![edge]).collect();
    some.extend([vec![], all.clone(), [&all[..], &all[..]].concat(), all.repeat(20)]);
    if let Some(&last) = all.last() {
        some.extend([vec![last; 2], vec![last; 3], vec![last; 300], vec![0, last, 0]]);
    }
    for outside in [edges as u8, edges as u8 + 1, 63, 64, 127, 128, 255] {
        some.extend([vec![outside], [&all[..], &[outside]].concat(), [&[outside], &all[..]].concat()]);
    }
    some
}

// ---- written down

/// What the scope paper has, and everything that can be wrong on its complexes.
pub fn written_down(tally: &mut Tally) {
    stated(tally);
    for sheet in complexes::written_down(1).into_iter().chain(complexes::written_down(1001)) {
        combinations(&sheet, tally);
    }
    combinations(&Sheet { complex: inputs::fullest(193), lambda: 1 }, tally);
}

/// The triangle's product and expectation, which the Rust gives bit by bit.
fn stated(tally: &mut Tally) {
    let given = Given::<EvenSets>::of(&triangle());
    let basis = given.accepted().expect("one part, within the limit");
    let (coupling, weights) = (EvenSets::MODE.params(1.0), Weights::absent());
    let by_rust = basis.space.hamiltonian_matvec(&[3.0, 5.0], 1.0, None);
    assert!(floats::same(&by_rust, &[-2.5, 4.125]), "the Rust no longer gives the triangle's product");
    product(&given, coupling, &weights, &[3.0, 5.0], [0, 0], tally);
    // one edge is in the second set alone, two are in both an even number of times; by passes an edge and back counts for nothing
    for (path, value, by_passes) in [
        (vec![1], -16.0, -16.0),
        (vec![0, 2], 34.0, 34.0),
        (vec![0, 1, 2], -16.0, -16.0),
        (vec![1, 1], -16.0, 34.0),
        (vec![0, 0], -16.0, 34.0),
        (vec![1, 1, 1], -16.0, -16.0),
        (vec![0, 1, 2, 0, 1, 2], -16.0, 34.0),
        (vec![], 34.0, 34.0),
    ] {
        let by_rust = basis.space.wilson_loop(&[3.0, 5.0], &path);
        assert!(floats::same(&[by_rust], &[value]), "the Rust no longer gives {value}");
        let own = entries::su2_expectation(basis.space.states(), &[3.0, 5.0], &path, Reading::Passes);
        assert!(floats::same(&[own], &[by_passes]), "the reference does not give {by_passes}");
        expectations(&given, &[3.0, 5.0], &path, 0, tally);
    }
    // what docs/DIFFERENCES.md says of the Rust under 6
    assert_eq!(basis.space.wilson_loop(&[3.0, 5.0], &[3, 63]), 34.0, "the Rust no longer takes edges that are not there");
}

/// Each argument with every other right, and every two wrong at once.
fn combinations(sheet: &Sheet, tally: &mut Tally) {
    let given = Given::<EvenSets>::of(sheet);
    let (count, triangles) = (count(&given), sheet.complex.triangles.len());
    for vector in some_vectors(count) {
        for coupling in some_couplings(EvenSets::MODE) {
            for spares in SPARES {
                product(&given, coupling, &Weights::absent(), &vector, spares, tally);
            }
        }
        for weights in some_weights(triangles) {
            for spares in [SPARES[0], SPARES[5]] {
                product(&given, EvenSets::MODE.params(1.0), &weights, &vector, spares, tally);
            }
        }
        for path in some_paths(sheet.complex.edges.len()) {
            for spare in [13, 0, -1, NO_ROOM] {
                expectations(&given, &vector, &path, spare, tally);
            }
        }
    }
}

// ---- long lists

/// Up to a million masks.
pub fn large(tally: &mut Tally) {
    let mut random = Random::new(QUICK_SEED);
    for (vertices, less) in [(5, 0), (6, 0), (7, 0), (8, 1)] {
        let edges = pairs(vertices);
        let edges = &edges[..edges.len() - less];
        let sheet = sheet(vertices.into(), edges, &inputs::closed(edges), 1);
        let given = Given::<EvenSets>::of(&sheet);
        for spares in [[0, 0], [0, -1], [-1, 0]] {
            let weights = Weights::of(weights::right(&mut random, sheet.complex.triangles.len()));
            let vector = weights::right(&mut random, count(&given));
            product(&given, EvenSets::MODE.params(couplings::any_g_squared(&mut random)), &weights, &vector, spares, tally);
            expectations(&given, &vector, &any_path(&mut random, edges.len()), spares[0], tally);
        }
    }
}

// ---- any bytes

/// All three calls on any bytes: with nothing else wrong, and with everything.
pub fn any_bytes(bytes: &[u8], tally: &mut Tally) {
    if reference::masks_to_write(bytes) <= 100 {
        let given = Given::<EvenSets>::new(bytes.to_vec());
        let right = vec![0.5; count(&given)];
        product(&given, EvenSets::MODE.params(3.0), &Weights::absent(), &right, SPARES[0], tally);
        product(&given, [f64::NAN; 3], &Weights::of(vec![f64::NAN; 300]), &[f64::NAN; 300], [NO_ROOM; 2], tally);
        expectations(&given, &right, &[], 13, tally);
        expectations(&given, &[f64::NAN; 300], &[255], NO_ROOM, tally);
    }
}

// ---- small graphs

/// Every small graph in three orders.
pub fn small_graphs(tally: &mut Tally) {
    complexes::small_graphs(|_, sheet, random| {
        if sheet.lambda == 0 {
            calls(sheet, 3, random, tally);
        }
    });
}

// ---- random inputs

pub fn random_rounds(tally: &mut Tally) {
    let mut random = Random::new(QUICK_SEED);
    for round in 0..QUICK_ROUNDS {
        random_round(&mut random, if round % 300 == 0 { 4_000 } else { 250 }, tally);
    }
}

/// A few calls on a complex with up to so many masks, on one that may be past the limit, and on damaged sheets.
pub fn random_round(random: &mut Random, most: u64, tally: &mut Tally) {
    let free = random.below(u64::from(most.ilog2()) + 1);
    calls(&Sheet { complex: any_complex(random, free), lambda: 1 }, 3, random, tally);
    let sheet = Sheet { complex: complexes::any(random), lambda: 0 };
    for bytes in [reference::encode(&sheet), inputs::any_sheet_bytes(random)] {
        any_bytes(&bytes, tally);
    }
}

/// So many calls with amplitudes and all else of any sort, mostly right, and lists of any length, mostly long enough.
fn calls(sheet: &Sheet, how_many: usize, random: &mut Random, tally: &mut Tally) {
    let given = Given::<EvenSets>::of(sheet);
    for _ in 0..how_many {
        let weights = weights::any(random, sheet.complex.triangles.len());
        let mut vector = weights::right(random, count(&given));
        if random.one_in(10) {
            weights::damage(random, &mut vector);
        }
        let spares = if random.one_in(10) { random.pick(&SPARES) } else { [(); 2].map(|()| random.below(40) as i64) };
        product(&given, couplings::any_coupling(random, EvenSets::MODE), &weights, &vector, spares, tally);
        let path = any_path(random, sheet.complex.edges.len());
        expectations(&given, &vector, &path, lent::any_spare(random), tally);
    }
}

/// Few edges or many, some of them several times.
pub fn right_path(random: &mut Random, edges: usize) -> Vec<u8> {
    let most = random.pick(&[3, 12, 12, 90]);
    let len = if edges == 0 { 0 } else { random.below(most) };
    (0..len).map(|_| random.below(edges as u64) as u8).collect()
}

/// The same, now and then the whole path twice, and now and then with one that is not there.
fn any_path(random: &mut Random, edges: usize) -> Vec<u8> {
    let mut path = right_path(random, edges);
    if random.one_in(6) {
        path = path.repeat(2);
    }
    if random.one_in(10) {
        let outside = random.pick(&[edges as u8, edges as u8, edges as u8 + 1, 64, 255]);
        path.insert(random.below(path.len() as u64 + 1) as usize, outside);
    }
    path
}
