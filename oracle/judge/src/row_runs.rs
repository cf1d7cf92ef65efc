//! The runs of `build_csr` and `build_csr_su2`, of what is counted without a list, and of `matvec`.

use crate::basis::{Basis, Given};
use crate::case::{Tally, run};
use crate::complexes::{self, pairs, path};
use crate::couplings::{self, Coupling, ENDS};
use crate::dense::{Ask, Matrix};
use crate::dense_runs::{any_complex, some_couplings, some_weights, triangle};
use crate::lent::{self, NO_ROOM};
use crate::masks::EvenSets;
use crate::product::{MOST_VALUE, Product};
use crate::random::Random;
use crate::reference::{self, MOST_CANDIDATES, MOST_LAMBDA, Sheet};
use crate::row_lists::{Counted, Csr, Rowed, Rows, by_both};
use crate::runs::QUICK_SEED;
use crate::rust::RowLists;
use crate::sheets::sheet;
use crate::weights::{self, MOST, Weights};
use crate::{floats, inputs};

const QUICK_ROUNDS: usize = 5_000;

/// Every four lengths of the work list, the starts, the columns and the values that matter.
const SPARES: [[i64; 4]; 8] =
    [[13, 17, 19, 23], [0; 4], [-1, 17, 19, 23], [13, -1, 19, 23], [13, 17, -1, 23], [13, 17, 19, -1], [-1; 4], [NO_ROOM; 4]];

fn rows<B: Csr>(given: &Given<B>, coupling: Coupling, weights: &Weights, spares: [i64; 4], tally: &mut Tally) {
    run(&Rows { given: given.clone(), ask: Ask { coupling, weights: weights.clone(), spares } }, tally);
}

fn counted<B: Rowed>(given: &Given<B>, g_squared: f64, weights: &Weights, tally: &mut Tally) {
    run(&Counted { given: given.clone(), g_squared, weights: weights.clone() }, tally);
}

// ---- written down

/// The row lists of the scope paper, and everything that can be wrong on its complexes.
pub fn written_down(tally: &mut Tally) {
    stated(tally);
    for lambda in [0, 1, 2, MOST_LAMBDA + 1] {
        for sheet in complexes::written_down(lambda) {
            combinations::<Basis>(&sheet, tally);
            combinations::<EvenSets>(&sheet, tally);
            counts(&sheet, tally);
        }
    }
    let five = sheet(4, &pairs(4)[..5], &[[0, 1, 2]], 512);
    for sheet in [five, Sheet { complex: inputs::fullest(193), lambda: 0 }, Sheet { complex: inputs::fullest(193), lambda: 1 }] {
        combinations::<Basis>(&sheet, tally);
        combinations::<EvenSets>(&sheet, tally);
        counts(&sheet, tally);
    }
}

/// The triangle's row lists in both modes: the values beside the diagonals, tiny and 0 among them, which stay.
fn stated(tally: &mut Tally) {
    let least = floats::power(-1074);
    for (g_squared, weight, u1, su2) in [
        (1.0, 1.0, -0.5, -0.5),
        (3.0, floats::power(-1071), -least, -least),
        (1.0, 0.0, -0.0, -0.0),
        (1.0, -0.0, 0.0, 0.0),
        (ENDS[0], MOST, -floats::power(63), -floats::power(63)),
    ] {
        let weights = Weights::of(vec![weight]);
        let on = 1.5 * g_squared;
        let expected = [on, u1, u1, u1, u1, on];
        let states = Given::<Basis>::of(&triangle());
        stated_values(&states, g_squared, &weights, &[0, 2, 4, 6], &[0, 1, 0, 2, 1, 2], &expected);
        let given = Given::<EvenSets>::of(&triangle());
        stated_values(&given, g_squared, &weights, &[0, 1, 3], &[1, 0, 1], &[su2, su2, 1.125 * g_squared]);
        for spares in SPARES {
            rows(&given, EvenSets::MODE.params(g_squared), &weights, spares, tally);
            rows(&states, Basis::MODE.params(g_squared), &weights, spares, tally);
        }
        counted(&given, g_squared, &weights, tally);
        counted(&states, g_squared, &weights, tally);
    }
}

/// The Rust gives these row lists, bit by bit.
fn stated_values<B: Rowed>(given: &Given<B>, g_squared: f64, weights: &Weights, starts: &[u32], columns: &[u32], values: &[f64]) {
    let basis = given.accepted().expect("one part, within the limit");
    let lists = by_both(basis, B::MODE.params(g_squared), weights).expect("by the definition");
    let same = lists.starts == starts && lists.columns == columns && floats::same(&lists.values, values);
    assert!(same, "the Rust no longer gives {}", floats::show(values));
}

/// Every coupling with all weights and all lengths, on one sheet.
fn combinations<B: Csr>(sheet: &Sheet, tally: &mut Tally) {
    let given = Given::<B>::of(sheet);
    for coupling in some_couplings(B::MODE) {
        for weights in some_weights(sheet.complex.triangles.len()) {
            for spares in SPARES {
                rows(&given, coupling, &weights, spares, tally);
            }
        }
    }
}

/// Both modes, at both ends of g², with weights that leave next to nothing.
fn counts(sheet: &Sheet, tally: &mut Tally) {
    let tiny = Weights::of(vec![-floats::power(-1074); sheet.complex.triangles.len()]);
    for g_squared in ENDS {
        if reference::to_try(&reference::encode(sheet)) <= 3_000 {
            counted(&Given::<Basis>::of(sheet), g_squared, &tiny, tally);
        }
        counted(&Given::<EvenSets>::of(sheet), g_squared, &tiny, tally);
    }
}

// ---- long lists

/// Up to a million entries, and sheets whose states alone are counted.
pub fn large(tally: &mut Tally) {
    let mut random = Random::new(QUICK_SEED);
    for vertices in [5, 6, 7] {
        let edges = pairs(vertices);
        let given = Given::<EvenSets>::of(&sheet(vertices.into(), &edges, &inputs::closed(&edges), 1));
        for spares in [[0; 4], [0, 0, -1, 0], [0, 0, 0, -1], [0, -1, 0, 0]] {
            let weights = Weights::of(weights::right(&mut random, inputs::closed(&edges).len()));
            rows(&given, EvenSets::MODE.params(couplings::any_g_squared(&mut random)), &weights, spares, tally);
        }
        counted(&given, ENDS[0], &Weights::absent(), tally);
    }
    let shortcuts = [path(5), vec![[0, 2], [2, 4]]].concat();
    for (vertices, edges, lambda) in [(5, shortcuts, 200), (4, pairs(4), 20), (5, pairs(5), 2), (6, pairs(6), 1)] {
        let given = Given::<Basis>::of(&sheet(vertices, &edges, &inputs::closed(&edges), lambda));
        counted(&given, ENDS[1], &Weights::absent(), tally);
        multiplied(&given, &mut random, 2, tally);
        for spares in [[0; 4], [0, 0, -1, 0], [0, 0, 0, -1], [0, -1, 0, 0]] {
            let weights = Weights::of(weights::right(&mut random, inputs::closed(&edges).len()));
            rows(&given, Basis::MODE.params(couplings::any_g_squared(&mut random)), &weights, spares, tally);
        }
    }
}

// ---- any bytes

/// All calls on any bytes: with nothing else wrong, and with everything.
pub fn any_bytes(bytes: &[u8], tally: &mut Tally) {
    if reference::to_try(bytes) <= 100 {
        all_or_nothing::<Basis>(bytes, tally);
    }
    if reference::masks_to_write(bytes) <= 100 {
        all_or_nothing::<EvenSets>(bytes, tally);
    }
}

fn all_or_nothing<B: Csr>(bytes: &[u8], tally: &mut Tally) {
    let given = Given::<B>::new(bytes.to_vec());
    counted(&given, 3.0, &Weights::absent(), tally);
    rows(&given, B::MODE.params(3.0), &Weights::absent(), SPARES[0], tally);
    rows(&given, [f64::NAN; 3], &Weights::of(vec![f64::NAN; 300]), [NO_ROOM; 4], tally);
}

// ---- small graphs

/// Every small graph in three orders with L 0 to 2; the masks once for all L.
pub fn small_graphs(tally: &mut Tally) {
    complexes::small_graphs(|_, sheet, random| {
        if reference::to_try(&reference::encode(sheet)) <= 729 {
            calls::<Basis>(sheet, 2, random, tally);
        }
        if sheet.lambda == 0 {
            calls::<EvenSets>(sheet, 3, random, tally);
        }
    });
}

// ---- random inputs

pub fn random_rounds(tally: &mut Tally) {
    let mut random = Random::new(QUICK_SEED);
    for round in 0..QUICK_ROUNDS {
        random_round(&mut random, if round % 300 == 0 { 4_000 } else { 250 }, tally);
    }
}

/// A few calls on complexes with up to so many candidates, on one past the limit, on damaged sheets and on any row lists.
pub fn random_round(random: &mut Random, most: u64, tally: &mut Tally) {
    let free = random.below(7);
    let lambda = reference::largest_lambda(free as usize, most);
    let lambda = if random.one_in(3) { random.below(lambda + 1) } else { lambda };
    calls::<Basis>(&Sheet { complex: any_complex(random, free), lambda }, 2, random, tally);

    let free = random.below(u64::from(most.ilog2()) + 1);
    calls::<EvenSets>(&Sheet { complex: any_complex(random, free), lambda: 1 }, 2, random, tally);

    // all triangles that there can be, on the one state of L 0; past the limit with a higher L, and for the masks
    let mut sheet = Sheet { complex: complexes::any(random), lambda: 0 };
    calls::<Basis>(&sheet, 1, random, tally);
    sheet.lambda = random.between(reference::largest_lambda(sheet.complex.free_edges(), MOST_CANDIDATES), MOST_LAMBDA + 1);
    for bytes in [reference::encode(&sheet), inputs::any_sheet_bytes(random)] {
        any_bytes(&bytes, tally);
    }
    for _ in 0..4 {
        any_product(random, tally);
    }
}

/// So many calls with any coupling and weights, mostly right, and lists of any length, mostly long enough; what is counted, and products.
fn calls<B: Csr>(sheet: &Sheet, how_many: usize, random: &mut Random, tally: &mut Tally) {
    let given = Given::<B>::of(sheet);
    for _ in 0..how_many {
        let weights = weights::any(random, sheet.complex.triangles.len());
        let spares = if random.one_in(8) { random.pick(&SPARES) } else { [(); 4].map(|()| random.below(40) as i64) };
        rows(&given, couplings::any_coupling(random, B::MODE), &weights, spares, tally);
    }
    counted(&given, couplings::any_g_squared(random), &Weights::absent(), tally);
    multiplied(&given, random, 1, tally);
}

// ---- products

/// The Rust's row lists of a sheet, times any vectors.
fn multiplied<B: Rowed>(given: &Given<B>, random: &mut Random, how_many: usize, tally: &mut Tally) {
    let Some(basis) = given.accepted() else {
        return;
    };
    let weights = Weights::of(weights::right(random, basis.sheet().complex.triangles.len()));
    let lists = basis.rows_by_rust(couplings::any_g_squared(random), &weights);
    for _ in 0..how_many {
        let vector = weights::right(random, basis.count());
        run(&Product { rows: lists.clone(), vector, spare: lent::any_spare(random) }, tally);
    }
}

/// What a value may not be, and then what an amplitude may not be.
const OUTSIDE: [f64; 6] = [f64::NAN, f64::INFINITY, f64::NEG_INFINITY, MOST_VALUE.next_up(), -MOST_VALUE.next_up(), f64::MAX];

/// Any rows of few entries, columns in any order and several times, and now and then a fault.
fn any_product(random: &mut Random, tally: &mut Tally) {
    let count = random.below(12);
    let mut lists = RowLists { starts: vec![0], columns: vec![], values: vec![] };
    for _ in 0..count {
        for _ in 0..random.below(6) {
            lists.columns.push(random.below(count) as u32);
            let value = floats::between_powers(random, -1022, 80);
            let value = random.pick(&[value, value, MOST_VALUE, MOST_VALUE.next_down(), 0.0, floats::power(-1074), 1.0]);
            lists.values.push(floats::signed(random, value));
        }
        lists.starts.push(lists.columns.len() as u32);
    }
    let mut product = Product { rows: lists, vector: weights::right(random, count as usize), spare: lent::any_spare(random) };
    if random.one_in(2) {
        for _ in 0..random.between(1, 2) {
            damage(random, &mut product);
        }
    }
    run(&product, tally);
}

/// One thing is wrong: a length, a start, a column, a value or an amplitude.
fn damage(random: &mut Random, product: &mut Product) {
    let rows = product.vector.len() as u32;
    let entries = product.rows.columns.len() as u32;
    let any = random.next() as u32;
    let Product { rows: RowLists { starts, columns, values }, vector, .. } = product;
    match random.below(8) {
        0 => starts.push(entries),
        1 => drop(starts.pop()),
        2 => columns.push(0),
        3 => drop(values.pop()),
        4 if !starts.is_empty() => {
            let at = random.place(starts);
            starts[at] =
                random.pick(&[0, starts[at].wrapping_add(1), starts[at].wrapping_sub(1), entries, entries + 1, u32::MAX, any]);
        }
        5 if !columns.is_empty() => {
            let at = random.place(columns);
            columns[at] = random.pick(&[rows, rows + 1, u32::MAX, rows.wrapping_sub(1), any]);
        }
        6 if !values.is_empty() => {
            let at = random.place(values);
            values[at] = random.pick(&OUTSIDE);
        }
        _ if !vector.is_empty() => {
            let at = random.place(vector);
            vector[at] = random.pick(&weights::OUTSIDE);
        }
        _ => vector.push(f64::NAN),
    }
}

/// Every short list of starts and columns, with ends of the ranges of values and amplitudes.
pub fn short_products(tally: &mut Tally) {
    for count in 0..=2_usize {
        for entries in 0..=2_usize {
            for starts in numbers(count + 1, entries as u32 + 2) {
                for columns in numbers(entries, count as u32 + 2) {
                    let lists = RowLists { starts: starts.clone(), columns, values: vec![0.5; entries] };
                    for spare in [7, 0, -1] {
                        run(&Product { rows: lists.clone(), vector: vec![3.0; count], spare }, tally);
                    }
                }
            }
        }
    }
    lengths(tally);
    let one = |value: f64, amplitude: f64| Product {
        rows: RowLists { starts: vec![0, 1], columns: vec![0], values: vec![value] },
        vector: vec![amplitude],
        spare: 1,
    };
    let mut values = OUTSIDE.to_vec();
    values.extend([MOST_VALUE, -MOST_VALUE, 0.0, -0.0, 1.0, floats::power(-1074), -floats::power(-1022)]);
    let mut amplitudes = weights::OUTSIDE.to_vec();
    amplitudes.extend([MOST, -MOST, 0.0, -0.0, 1.0, floats::power(-1074), -floats::power(-1022)]);
    for &value in &values {
        for &amplitude in &amplitudes {
            run(&one(value, amplitude), tally);
        }
    }
}

/// All lists of so many numbers below a limit.
fn numbers(len: usize, below: u32) -> Vec<Vec<u32>> {
    let count = (below as usize).pow(len as u32);
    (0..count).map(|code| (0..len).map(|at| (code / (below as usize).pow(at as u32)) as u32 % below).collect()).collect()
}

/// Lists of every few lengths that do not belong together.
fn lengths(tally: &mut Tally) {
    for starts in 0..4 {
        for columns in 0..3 {
            for values in 0..3 {
                for vector in 0..4 {
                    let rows = RowLists { starts: vec![0; starts], columns: vec![0; columns], values: vec![f64::NAN; values] };
                    run(&Product { rows, vector: vec![f64::NAN; vector], spare: NO_ROOM }, tally);
                }
            }
        }
    }
}
