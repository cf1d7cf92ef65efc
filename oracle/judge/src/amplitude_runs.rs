//! The runs of `hamiltonian_matvec`, `electric_field_sq` and `wilson_loop`.

use crate::amplitudes::{Applied, Expected, Path, Squares};
use crate::basis::{Basis, Given};
use crate::case::{Tally, run};
use crate::complexes::{self, pairs, path};
use crate::couplings::{self, Coupling, ENDS};
use crate::dense::{Ask, Matrix};
use crate::dense_runs::{any_complex, some_couplings, some_weights, triangle};
use crate::lent::{self, NO_ROOM};
use crate::random::Random;
use crate::reference::{self, MOST_CANDIDATES, MOST_LAMBDA, Sheet};
use crate::runs::QUICK_SEED;
use crate::sheets::sheet;
use crate::weights::{self, MOST, OUTSIDE, Weights};
use crate::{floats, inputs, rust};

const QUICK_ROUNDS: usize = 5_000;

/// Every two lengths of the work list and the result that matter.
const SPARES: [[i64; 2]; 6] = [[13, 17], [0, 0], [-1, 17], [13, -1], [-1, -1], [NO_ROOM; 2]];

fn applied(given: &Given, coupling: Coupling, weights: &Weights, vector: &[f64], spares: [i64; 2], tally: &mut Tally) {
    let ask = Ask { coupling, weights: weights.clone(), spares };
    run(&Applied { given: given.clone(), ask, vector: vector.to_vec() }, tally);
}

fn squares(given: &Given, amplitudes: &[f64], spares: [i64; 2], tally: &mut Tally) {
    run(&Squares { given: given.clone(), amplitudes: amplitudes.to_vec(), spares }, tally);
}

fn expected(given: &Given, amplitudes: &[f64], path: &Path, spare: i64, tally: &mut Tally) {
    run(&Expected { given: given.clone(), amplitudes: amplitudes.to_vec(), path: path.clone(), spare }, tally);
}

/// The number of states, or a few where there is no basis.
fn count(given: &Given) -> usize {
    given.accepted().map_or(3, Basis::count)
}

// ---- written down

/// The values of the scope paper, and everything that can be wrong on its complexes.
pub fn written_down(tally: &mut Tally) {
    stated(tally);
    for lambda in [0, 1, 2, MOST_LAMBDA + 1] {
        for sheet in complexes::written_down(lambda) {
            combinations(&sheet, tally);
        }
    }
    // too many candidates
    combinations(&sheet(4, &pairs(4)[..5], &[[0, 1, 2]], 512), tally);
    combinations(&Sheet { complex: inputs::fullest(193), lambda: 1 }, tally);
}

/// The triangle's product, squares and expectations that the scope paper has.
fn stated(tally: &mut Tally) {
    let given = Given::<Basis>::of(&triangle());
    let basis = given.accepted().expect("one part, within the limit");
    let amplitudes = vec![1.0, 2.0, 3.0];
    let holds = |found: Result<Vec<f64>, String>, floats: &[f64]| {
        let found = found.expect("by the definition");
        assert!(floats::same(&found, floats), "the Rust no longer gives {}", floats::show(floats));
    };
    for spares in SPARES {
        let ask = Ask { coupling: Basis::MODE.params(1.0), weights: Weights::absent(), spares };
        let product = Applied { given: given.clone(), ask, vector: amplitudes.clone() };
        holds(product.product(basis), &[0.5, -2.0, 3.5]);
        run(&product, tally);
        let squares = Squares { given: given.clone(), amplitudes: amplitudes.clone(), spares };
        holds(squares.squares(basis), &[10.0; 3]);
        run(&squares, tally);
        // around, back, one step alone, and nowhere
        let around = [(0, 1), (1, -1), (2, 1)];
        for (steps, sum) in [(&around[..], 8.0), (&around.map(|(edge, to)| (edge, -to)), 8.0), (&around[..1], 0.0), (&[], 14.0)] {
            let path = Path::of(steps);
            let expected = Expected { given: given.clone(), amplitudes: amplitudes.clone(), path, spare: spares[0] };
            holds(expected.expectation(basis), &[sum]);
            run(&expected, tally);
        }
    }
}

/// All that can be wrong, alone and together, on one sheet.
fn combinations(sheet: &Sheet, tally: &mut Tally) {
    let given = Given::<Basis>::of(sheet);
    let right = vec![0.75; count(&given)];
    for coupling in some_couplings(Basis::MODE) {
        for weights in some_weights(sheet.complex.triangles.len()) {
            applied(&given, coupling, &weights, &right, SPARES[0], tally);
            applied(&given, coupling, &weights, &[], [NO_ROOM; 2], tally);
        }
    }
    let paths = some_paths(sheet);
    for amplitudes in some_amplitudes(count(&given)) {
        for spares in SPARES {
            for coupling in [Basis::MODE.params(ENDS[0]), [f64::NAN; 3]] {
                applied(&given, coupling, &Weights::absent(), &amplitudes, spares, tally);
            }
            squares(&given, &amplitudes, spares, tally);
        }
        for path in &paths {
            for spare in [13, 0, -1, NO_ROOM] {
                expected(&given, &amplitudes, path, spare, tally);
            }
        }
    }
}

/// As many as there are states, of every sort; one fewer, one more, none; right ones with a fault at one end.
fn some_amplitudes(count: usize) -> Vec<Vec<f64>> {
    let mut some: Vec<Vec<f64>> = [count, count.saturating_sub(1), count + 1, 0].map(|len| vec![0.75; len]).to_vec();
    some.push(vec![f64::NAN; count + 1]);
    let least = floats::power(-1074);
    some.extend([MOST, -MOST, least, -least, 0.0, -0.0, floats::power(-1022)].map(|float| vec![float; count]));
    for outside in OUTSIDE {
        let mut list = vec![0.75; count];
        list[0] = outside;
        some.push(list.clone());
        list.reverse();
        some.push(list);
    }
    some
}

/// No step, the loops there and back, one step, a step and back, long ones; then what is no path.
fn some_paths(sheet: &Sheet) -> Vec<Path> {
    let n_edges = sheet.complex.edges.len();
    let mut some = vec![Path::default()];
    if reference::read_sheet(&reference::encode(sheet)).is_ok() && n_edges > 0 {
        let last = n_edges - 1;
        for one in rust::fundamental_loops(&sheet.complex).iter().take(3) {
            some.extend([Path::of(one), Path::of(&back(one)), Path::of(&[&one[..], one].concat())]);
        }
        for steps in [&[(0, 1)][..], &[(last, -1)], &[(last, 1), (last, -1)], &[(0, 1), (0, 1), (0, -1), (0, -1)]] {
            some.push(Path::of(steps));
        }
        some.push(Path::of(&[(0, 1), (0, -1)].repeat(200)));
    }
    let step = |edge: usize, direction: i8| Path { edges: vec![edge as u8], directions: vec![direction] };
    some.extend([n_edges, n_edges + 1, 255].map(|edge| step(edge, 1)));
    some.extend([0, 2, -2, 127, -128].map(|direction| step(0, direction)));
    // the fault is behind, and there are too many or too few directions besides
    some.push(Path { edges: vec![0, 0, n_edges as u8], directions: vec![1, -1, 0] });
    some.push(Path { edges: vec![0], directions: vec![] });
    some.push(Path { edges: vec![255], directions: vec![1, 0] });
    some
}

fn back(steps: &[(usize, i32)]) -> Vec<(usize, i32)> {
    steps.iter().rev().map(|&(edge, direction)| (edge, -direction)).collect()
}

// ---- long lists

/// Up to half a million states.
pub fn large(tally: &mut Tally) {
    let mut random = Random::new(QUICK_SEED);
    let shortcuts = [path(5), vec![[0, 2], [2, 4]]].concat();
    for (vertices, edges, lambda) in [(3, pairs(3), MOST_LAMBDA), (5, shortcuts, 150), (4, pairs(4), 50), (5, pairs(5), 2)] {
        let sheet = sheet(vertices, &edges, &inputs::closed(&edges), lambda);
        calls(&sheet, 2, &mut random, tally);
    }
}

// ---- any bytes

/// All three on any bytes: with nothing else wrong, and with everything.
pub fn any_bytes(bytes: &[u8], tally: &mut Tally) {
    if reference::to_try(bytes) > 100 {
        return;
    }
    let given = Given::<Basis>::new(bytes.to_vec());
    let (right, wrong) = (vec![0.75; count(&given)], vec![f64::NAN; 300]);
    applied(&given, Basis::MODE.params(3.0), &Weights::absent(), &right, [13, 17], tally);
    applied(&given, [f64::NAN; 3], &Weights::of(wrong.clone()), &wrong, [NO_ROOM; 2], tally);
    squares(&given, &right, [13, 17], tally);
    squares(&given, &wrong, [NO_ROOM; 2], tally);
    expected(&given, &right, &Path::default(), 13, tally);
    expected(&given, &wrong, &Path { edges: vec![255], directions: vec![0, 0] }, NO_ROOM, tally);
}

// ---- small graphs

/// Every small graph in three orders with L 0 to 2.
pub fn small_graphs(tally: &mut Tally) {
    complexes::small_graphs(|_, sheet, random| {
        if reference::to_try(&reference::encode(sheet)) <= 729 {
            calls(sheet, 1, random, tally);
        }
    });
}

// ---- random inputs

pub fn random_rounds(tally: &mut Tally) {
    let mut random = Random::new(QUICK_SEED);
    for round in 0..QUICK_ROUNDS {
        random_round(&mut random, if round % 300 == 0 { 4_000 } else { 250 }, tally);
    }
}

/// A few calls on complexes with up to so many candidates, on one past the limit, and on damaged sheets.
pub fn random_round(random: &mut Random, most: u64, tally: &mut Tally) {
    let free = random.below(7);
    let lambda = reference::largest_lambda(free as usize, most);
    let lambda = if random.one_in(3) { random.below(lambda + 1) } else { lambda };
    calls(&Sheet { complex: any_complex(random, free), lambda }, 2, random, tally);

    let mut sheet = Sheet { complex: complexes::any(random), lambda: 0 };
    calls(&sheet, 1, random, tally);
    sheet.lambda = random.between(reference::largest_lambda(sheet.complex.free_edges(), MOST_CANDIDATES), MOST_LAMBDA + 1);
    for bytes in [reference::encode(&sheet), inputs::any_sheet_bytes(random)] {
        any_bytes(&bytes, tally);
    }
}

/// So many times all three with any amplitudes, weights and paths, mostly right, and lists of any length, mostly long enough.
fn calls(sheet: &Sheet, how_many: usize, random: &mut Random, tally: &mut Tally) {
    let given = Given::<Basis>::of(sheet);
    for _ in 0..how_many {
        let (coupling, weights) =
            (couplings::any_coupling(random, Basis::MODE), weights::any(random, sheet.complex.triangles.len()));
        let spares = if random.one_in(8) { random.pick(&SPARES) } else { [(); 2].map(|()| random.below(40) as i64) };
        applied(&given, coupling, &weights, &any_amplitudes(random, count(&given)), spares, tally);
        squares(&given, &any_amplitudes(random, count(&given)), spares, tally);
        for _ in 0..3 {
            let path = any_path(random, sheet);
            expected(&given, &any_amplitudes(random, count(&given)), &path, lent::any_spare(random), tally);
        }
    }
}

fn any_amplitudes(random: &mut Random, count: usize) -> Vec<f64> {
    let mut amplitudes = weights::right(random, count);
    if random.one_in(12) {
        weights::damage(random, &mut amplitudes);
    }
    amplitudes
}

/// Loops one after the other, each there or back, with a few steps of any sort among them.
pub fn right_path(random: &mut Random, sheet: &Sheet) -> Path {
    let n_edges = sheet.complex.edges.len() as u64;
    let mut steps = vec![];
    if n_edges > 0 && reference::read_sheet(&reference::encode(sheet)).is_ok() {
        let loops = rust::fundamental_loops(&sheet.complex);
        for _ in 0..random.below(3) {
            if !loops.is_empty() {
                let one = &loops[random.place(&loops)];
                steps.extend(if random.one_in(2) { one.clone() } else { back(one) });
            }
        }
        if random.one_in(3) {
            let long = if random.one_in(20) { 1_000 } else { 6 };
            for _ in 0..random.below(long) {
                let step = (random.below(n_edges) as usize, random.pick(&[1, -1]));
                // with its way back, so that some long walks end in a state
                steps.splice(0..0, if random.one_in(2) { vec![step] } else { vec![step, (step.0, -step.1)] });
            }
        }
    }
    Path::of(&steps)
}

/// The same; now and then a fault.
fn any_path(random: &mut Random, sheet: &Sheet) -> Path {
    let mut path = right_path(random, sheet);
    if random.one_in(10) {
        damage(random, &mut path, sheet.complex.edges.len() as u64);
    }
    path
}

/// One step is none, or the lists are not of one length.
fn damage(random: &mut Random, path: &mut Path, n_edges: u64) {
    let edge = random.pick(&[n_edges, n_edges + 1, 63, 64, 127, 128, 255]) as u8;
    match random.below(6) {
        0 => path.edges.push(0),
        1 => drop(path.directions.pop()),
        2 | 3 if !path.edges.is_empty() => {
            let at = random.place(&path.edges);
            path.edges[at] = edge;
        }
        4 | 5 if !path.directions.is_empty() => {
            let at = random.place(&path.directions);
            path.directions[at] = random.pick(&[0, 2, -2, 127, -128, 3]);
        }
        _ => path.edges.push(edge),
    }
}
