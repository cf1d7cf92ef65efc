//! The runs that look for what is wrong with a configuration: each vertex and each edge is once the lowest. The calls without a finding get
//! the same inputs.

use crate::basis::Given;
use crate::case::{Tally, run};
use crate::complexes;
use crate::configurations::Hanging;
use crate::inputs;
use crate::law::GaussLaw;
use crate::lent::{self, Room};
use crate::place_runs::{any_delta, place, shift};
use crate::random::Random;
use crate::reference::{self, Complex, MOST_EDGES, MOST_VERTICES, Sheet};
use crate::runs::QUICK_SEED;
use crate::sheets::sheet;

const QUICK_ROUNDS: usize = 1_000;

/// All three calls on one configuration. Some shifts lead to it, from values on the edge that may be any; others lead away from it. Values
/// that do not fit 32 bits are left out.
fn whole(given: &Given, values: &[i64], random: &mut Random, tally: &mut Tally) {
    let Ok(configuration) = values.iter().map(|&value| i32::try_from(value)).collect::<Result<Vec<i32>, _>>() else {
        return;
    };
    run(&GaussLaw { sheet: given.bytes.clone(), configuration: configuration.clone() }, tally);
    place(given, &configuration, lent::any_spare(random), tally);
    let Some(basis) = given.accepted().filter(|_| !configuration.is_empty()) else {
        return;
    };
    for _ in 0..2 {
        let edge = random.place(&configuration);
        let value = configuration[edge];
        for delta in [0, random.pick(&[1, -1]), any_delta(random, basis)] {
            if let Some(before) = value.checked_sub(delta) {
                let mut other = configuration.clone();
                other[edge] = before;
                shift(given, &other, edge as u64, delta, Room::Ample, tally);
            }
        }
        // away from it, as far as 0 and by one
        for delta in [value.wrapping_neg(), random.pick(&[1, -1])] {
            shift(given, &configuration, edge as u64, delta, Room::Exact, tally);
        }
    }
}

// ---- the law

/// On trees of 2 to 64 vertices, with up to two edges more, and on the complexes of the scope paper.
pub fn every_vertex(tally: &mut Tally) {
    let mut random = Random::new(QUICK_SEED);
    for lambda in [0, 1, 2] {
        for sheet in complexes::written_down(lambda) {
            lowest_vertices(&sheet, &mut random, tally);
        }
    }
    for vertices in 2..=MOST_VERTICES {
        let free = random.below(3);
        let complex = inputs::complex_with(&mut random, vertices, free);
        lowest_vertices(&Sheet { complex, lambda: random.below(3) }, &mut random, tally);
    }
}

/// Each vertex but the last: so much runs from it to a later one, first alone, then also between later ones.
fn lowest_vertices(sheet: &Sheet, random: &mut Random, tally: &mut Tally) {
    let given = Given::of(sheet);
    if given.accepted().is_none() {
        return;
    }
    let hanging = Hanging::of(&sheet.complex);
    let last = sheet.complex.vertices - 1;
    for lowest in 0..last {
        for much in [1, -1, i64::from(i32::MIN), i64::from(i32::MAX)] {
            let mut values = vec![0; sheet.complex.edges.len()];
            hanging.run(lowest as u8, random.between(lowest + 1, last) as u8, much, &mut values);
            whole(&given, &values, random, tally);
            for _ in 0..4 {
                let [from, to] = [0; 2].map(|_| random.between(lowest + 1, last) as u8);
                hanging.run(from, to, random.pick(&[1, -1, 2]), &mut values);
            }
            whole(&given, &values, random, tally);
        }
    }
}

/// Sums at one vertex of up to 63 values, each of them up to the ends of 32 bits.
pub fn far_sums(tally: &mut Tally) {
    let mut random = Random::new(QUICK_SEED);
    let ends = [i32::MIN, i32::MIN + 1, i32::MAX, 1 << 30, -(1 << 30), 1 << 26, 1 << 16].map(i64::from);
    // from the middle of a star to each of its later ends: all values leave the middle
    for middle in [0, 1, 2, 31] {
        let star: Vec<[u8; 2]> = (0..64).filter(|&end| end != middle).map(|end| [end.min(middle), end.max(middle)]).collect();
        let (given, later) = (Given::of(&sheet(64, &star, &[], 1)), usize::from(middle)..MOST_EDGES);
        for count in 1..=later.len() {
            for value in ends {
                let mut values = vec![0; MOST_EDGES];
                values[later.clone()][..count].fill(value);
                whole(&given, &values, &mut random, tally);
            }
        }
    }
    // a star from its other end: each of the ends is the lowest once
    let star: Vec<[u8; 2]> = (0..63).map(|end| [end, 63]).collect();
    let given = Given::of(&sheet(64, &star, &[], 1));
    for lowest in 0..MOST_EDGES {
        for value in ends {
            let mut values = vec![0; MOST_EDGES];
            values[lowest..].fill(value);
            whole(&given, &values, &mut random, tally);
        }
    }
    // from the first vertices to the last two: what comes in at the one goes out at the other
    for count in [1, 2, 3, 31] {
        let edges: Vec<[u8; 2]> = (0..count).flat_map(|first| [[first, count], [first, count + 1]]).collect();
        let given = Given::of(&sheet(u64::from(count) + 2, &edges, &[], 0));
        for value in ends {
            let values: Vec<i64> = (0..edges.len()).map(|at| if at % 2 == 0 { value } else { -value }).collect();
            whole(&given, &values, &mut random, tally);
        }
    }
}

// ---- the band

/// Three ways from one vertex to another, of so many edges each. Those of the first way are numbered from a given number on.
fn three_ways(random: &mut Random, lengths: [usize; 3], first: usize) -> (Complex, [Vec<u8>; 3]) {
    let vertices = lengths.iter().sum::<usize>() - 1;
    let mut names: Vec<u8> = (0..vertices as u8).collect();
    random.shuffle(&mut names);
    let (from, to, mut between) = (names[0], names[1], names[2..].iter().copied());
    let ways = lengths.map(|length| [vec![from], between.by_ref().take(length - 1).collect(), vec![to]].concat());
    let [those, second, third] =
        ways.each_ref().map(|way| way.windows(2).map(|two| edge(two[0], two[1])).collect::<Vec<[u8; 2]>>());
    let mut edges = [second, third].concat();
    random.shuffle(&mut edges);
    edges.splice(first..first, those);
    (Complex { vertices: vertices as u64, edges, triangles: vec![] }, ways)
}

fn edge(one: u8, other: u8) -> [u8; 2] {
    [one.min(other), one.max(other)]
}

/// Lets so much run along a way.
fn along(complex: &Complex, way: &[u8], much: i64, values: &mut [i64]) {
    for two in way.windows(2) {
        let at = complex.edges.iter().position(|&there| there == edge(two[0], two[1])).expect("a way goes over edges");
        values[at] += if two[0] < two[1] { much } else { -much };
    }
}

/// Each edge: lawful values on three ways of which the first alone, or also others, are outside the band; then the law is broken too.
pub fn every_edge(tally: &mut Tally) {
    let mut random = Random::new(QUICK_SEED);
    for lengths in [[1, 2, 2], [2, 2, 2], [3, 2, 1], [1, 2, 60], [1, 31, 31], [2, 30, 31], [7, 1, 55], [21, 21, 21]] {
        for first in 0..=lengths[1] + lengths[2] {
            let (complex, ways) = three_ways(&mut random, lengths, first);
            let lambda = random.pick(&[1, 2, 7]);
            outside(&Sheet { complex, lambda }, &ways, &mut random, tally);
        }
    }
}

fn outside(sheet: &Sheet, ways: &[Vec<u8>; 3], random: &mut Random, tally: &mut Tally) {
    let given = Given::of(sheet);
    let most = sheet.lambda as i64;
    let last = sheet.complex.vertices - 1;
    // what runs along the first two ways comes back along the third
    let both = [
        (-2 * most, most),
        (2 * most, -most),
        (most + 1, -1),
        (-most - 1, most),
        (most, most + 1),
        (most + 1, -most - 1),
        (1, 1000),
        (1 << 31, -(1 << 30)),
        (-(1 << 31), 1 << 30),
    ];
    for (much, more) in both {
        let mut values = vec![0; sheet.complex.edges.len()];
        for (way, runs) in ways.iter().zip([much, more, -much - more]) {
            along(&sheet.complex, way, runs, &mut values);
        }
        whole(&given, &values, random, tally);
        let lowest = random.below(last);
        Hanging::of(&sheet.complex).run(lowest as u8, random.between(lowest + 1, last) as u8, random.pick(&[1, -1]), &mut values);
        whole(&given, &values, random, tally);
    }
}

// ---- small graphs

/// Of every graph on up to five vertices: each vertex as the lowest that breaks the law, and each loop outside the band.
pub fn small_graphs(tally: &mut Tally) {
    complexes::small_graphs(|order, sheet, random| {
        let given: Given = Given::of(sheet);
        let Some(basis) = given.accepted().filter(|_| order != 1) else {
            return;
        };
        let (hanging, states) = (Hanging::of(&sheet.complex), basis.space.states());
        let last = sheet.complex.vertices - 1;
        let any_state = |random: &mut Random| -> Vec<i64> { states[random.place(states)].iter().copied().map(i64::from).collect() };
        for lowest in 0..last {
            let mut values = any_state(random);
            hanging.run(lowest as u8, random.between(lowest + 1, last) as u8, random.pick(&[1, -1]), &mut values);
            whole(&given, &values, random, tally);
        }
        for &free in &hanging.free {
            let mut values = any_state(random);
            hanging.round(free, random.pick(&[1, -1, 2 * sheet.lambda as i64 + 1]), &mut values);
            whole(&given, &values, random, tally);
        }
    });
}

// ---- random inputs

pub fn random_rounds(tally: &mut Tally) {
    let mut random = Random::new(QUICK_SEED);
    for round in 0..QUICK_ROUNDS {
        random_round(&mut random, if round % 500 == 0 { 100_000 } else { 1_000 }, tally);
    }
}

/// A complex with up to so many candidates, and states of it that leave the band along loops, the law between vertices, or both by one
/// value.
pub fn random_round(random: &mut Random, most: u64, tally: &mut Tally) {
    let complex = complexes::any(random);
    let largest = reference::largest_lambda(complex.free_edges(), most);
    let sheet = Sheet { lambda: if random.one_in(2) { largest } else { random.below(largest + 1) }, complex };
    let given: Given = Given::of(&sheet);
    let states = given.accepted().expect("one part, within the limit").space.states();
    let hanging = Hanging::of(&sheet.complex);
    let lambda = sheet.lambda as i64;
    for _ in 0..4 {
        let mut values: Vec<i64> = states[random.place(states)].iter().copied().map(i64::from).collect();
        if !hanging.free.is_empty() && !random.one_in(3) {
            for _ in 0..random.between(1, 3) {
                let much = random.pick(&[1, -1, lambda, lambda + 1, -lambda - 1, 2 * lambda + 1, 1 << 20, -(1 << 30), 1 << 30]);
                hanging.round(random.pick(&hanging.free), much, &mut values);
            }
        }
        if !random.one_in(3) {
            for _ in 0..random.between(1, 3) {
                let [from, to] = [0; 2].map(|_| random.below(sheet.complex.vertices) as u8);
                hanging.run(from, to, random.pick(&[1, -1, 2, 1 << 16, -(1 << 24), 1 << 30]), &mut values);
            }
        }
        if !values.is_empty() && random.one_in(4) {
            let at = random.place(&values);
            values[at] = (random.next() as i32).into();
        }
        whole(&given, &values, random, tally);
    }
}
