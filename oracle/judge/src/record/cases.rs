//! The cases of the fixed list: ones that were written down, and random ones of a fixed seed.

use super::answers::ask;
use super::layout::{Call, Field, Fields};
use crate::basis::{Basis, Given};
use crate::complexes::{SQUARE, fewest_vertices, pairs, path};
use crate::dense::Matrix;
use crate::masks::EvenSets;
use crate::random::Random;
use crate::reference::{self, Complex, MOST_LAMBDA, Sheet};
use crate::sheets::sheet;
use crate::{configurations, inputs, place_runs};
use std::ops::RangeInclusive;

/// So often is one case drawn at most.
const MOST_TRIES: usize = 20_000;

/// Each case with the Rust's answers.
pub struct Cases {
    pub random: Random,
    pub list: Vec<(Call, Fields)>,
}

impl Cases {
    /// All of a seed.
    pub fn of(seed: u64) -> Cases {
        let mut cases = Cases { random: Random::new(seed), list: vec![] };
        cases.pentachora();
        cases.complexes();
        cases.lawful();
        cases.bases();
        cases.places();
        cases.shifts();
        cases.matrices::<Basis>([Call::BuildHamiltonian, Call::BuildCsr, Call::HamiltonianMatvec]);
        cases.matrices::<EvenSets>([Call::BuildSu2Hamiltonian, Call::BuildCsrSu2, Call::Su2HamiltonianMatvec]);
        cases.squares();
        cases.loops();
        cases.su2_loops();
        cases.products();
        cases.su2_passes();
        cases
    }

    /// One that was written down.
    pub fn put(&mut self, call: Call, taken: Fields) {
        let fields = ask(call, &taken).unwrap_or_else(|what| panic!("{call:?}: {what}"));
        self.list.push((call, fields));
    }

    /// So many drawn ones with up to so many bytes, each the first that the Rust answers in a way that is wanted.
    pub fn draw(
        &mut self,
        call: Call,
        (how_many, most): (usize, usize),
        wanted: impl Fn(&Fields) -> bool,
        make: impl Fn(&mut Random) -> Fields,
    ) {
        let right = |fields: &Fields| fields.len() <= most && fields.fit(call).is_ok() && wanted(fields);
        for _ in 0..how_many {
            let mut answered = (0..MOST_TRIES).filter_map(|_| ask(call, &make(&mut self.random)).ok());
            let fields = answered.find(right).unwrap_or_else(|| panic!("{call:?}: nothing that is wanted was drawn"));
            self.list.push((call, fields));
        }
    }
}

/// Whether the number told is one of these.
pub fn told(numbers: RangeInclusive<i64>) -> impl Fn(&Fields) -> bool {
    move |fields| fields.array(Field::Told).is_ok_and(|[told]| numbers.contains(&told))
}

pub fn at_least(number: i64) -> impl Fn(&Fields) -> bool {
    told(number..=i64::MAX)
}

// ---- complexes

pub fn on(sheet: &Sheet) -> Fields {
    Fields::default().with(Field::Sheet, &reference::encode(sheet))
}

/// Something of the Rust's basis of an accepted sheet.
pub fn basis<B: Matrix, T>(sheet: &Sheet, of: impl FnOnce(&B) -> T) -> T {
    of(Given::<B>::of(sheet).accepted().expect("one part, within the limit"))
}

/// With every triangle that its edges bear.
pub fn filled(vertices: u8, edges: &[[u8; 2]], lambda: u64) -> Sheet {
    sheet(vertices.into(), edges, &inputs::closed(edges), lambda)
}

pub fn triangle(lambda: u64) -> Sheet {
    filled(3, &pairs(3), lambda)
}

pub fn tetrahedron() -> Sheet {
    filled(4, &pairs(4), 1)
}

/// Five vertices, two triangles that share one of them.
pub fn two_triangles() -> Sheet {
    filled(5, &[path(5), vec![[0, 2], [2, 4]]].concat(), 1)
}

fn written_down() -> Vec<Sheet> {
    vec![
        sheet(1, &[], &[], 1),
        sheet(2, &pairs(2), &[], 2),
        triangle(0),
        triangle(1),
        triangle(2),
        sheet(3, &[[1, 2], [0, 2], [0, 1]], &[], 1),
        sheet(4, &SQUARE, &[], 1),
        tetrahedron(),
        two_triangles(),
    ]
}

/// Where the sheets of drawn cases come from.
pub type Source = fn(&mut Random) -> Sheet;

/// A few vertices and up to four free edges.
pub fn small(random: &mut Random) -> Sheet {
    let free = random.below(5);
    let fewest = fewest_vertices(free);
    let vertices = random.between(fewest, fewest + 3);
    let lambda = random.pick(&[0, 1, 1, 1, 2, 3]);
    Sheet { complex: inputs::complex_with(random, vertices, free), lambda }
}

/// Tens of vertices, at most two free edges.
pub fn wide(random: &mut Random) -> Sheet {
    let (vertices, free) = (random.between(14, 62), random.below(3));
    Sheet { complex: inputs::complex_with(random, vertices, free), lambda: random.between(1, 2) }
}

/// Any that is accepted; every third time a small one.
fn any_complex(random: &mut Random) -> Complex {
    if random.one_in(3) { small(random).complex } else { inputs::right_complex(random) }
}

impl Cases {
    fn pentachora(&mut self) {
        let of = |vertices: u64, list: &[u64]| Fields::default().with(Field::Numbers, &[vertices]).with(Field::Pentachora, list);
        let shell: Vec<u64> = (0..6).flat_map(|left_out| (0..6).filter(move |&vertex| vertex != left_out)).collect();
        for (vertices, list) in [
            (1, &[][..]),
            (5, &[0, 1, 2, 3, 4]),
            (5, &[2, 0, 4, 1, 3, 3, 1, 0, 2, 4]),
            (6, &[5, 1, 4, 2, 3, 0, 3, 1, 2, 4]),
            (9, &[0, 1, 2, 3, 4, 4, 5, 6, 7, 8]),
            (6, &shell),
        ] {
            self.put(Call::FromPentachorons, of(vertices, list));
        }
        for (how_many, edges) in [(4, 11..=30), (1, 63..=63)] {
            self.draw(Call::FromPentachorons, (how_many, 900), told(edges), |random| {
                let (vertices, list) = inputs::right_pentachora(random);
                of(vertices, &list)
            });
        }
    }

    /// Edges of triangles, trees and loops.
    fn complexes(&mut self) {
        let five = filled(5, &pairs(5), 1);
        let fullest = Sheet { complex: inputs::fullest(193), lambda: 0 };
        for (sheet, triangle) in [(triangle(1), 0), (tetrahedron(), 0), (tetrahedron(), 3), (five.clone(), 9), (fullest, 192)] {
            self.put(Call::TriEdgeIndices, on(&sheet).with(Field::Numbers, &[triangle as u64]));
        }
        self.draw(Call::TriEdgeIndices, (5, 180), at_least(0), |random| {
            let complex = any_complex(random);
            let triangle = random.below(complex.triangles.len() as u64 + 1);
            on(&Sheet { complex, lambda: 1 }).with(Field::Numbers, &[triangle])
        });
        for call in [Call::SpanningTree, Call::FundamentalLoops, Call::Su2FundamentalLoops] {
            for sheet in [sheet(1, &[], &[], 1), triangle(1), sheet(4, &SQUARE, &[], 0), tetrahedron(), five.clone()] {
                self.put(call, on(&sheet));
            }
            self.draw(call, (4, 350), at_least(1), |random| on(&Sheet { complex: any_complex(random), lambda: 2 }));
            self.draw(call, (2, 450), at_least(1), |random| on(&wide(random)));
        }
        self.put(Call::SpanningTree, on(&sheet(64, &path(64), &[], 0)));
    }
}

// ---- bases

impl Cases {
    fn lawful(&mut self) {
        let holds = |sheet: &Sheet, values: &[i32]| on(sheet).with(Field::Configuration, values);
        for values in [[1, -1, 1], [1, -1, 0], [1 << 24, -(1 << 24), 1 << 24], [1 << 24, 1 << 24, 1 << 24]] {
            self.put(Call::CheckGaussLaw, holds(&triangle(1), &values));
        }
        self.put(Call::CheckGaussLaw, holds(&sheet(1, &[], &[], 0), &[]));
        for lawful in [0, 1] {
            for (how_many, complex) in [(6, small as Source), (2, wide)] {
                self.draw(Call::CheckGaussLaw, (how_many, 280), told(lawful..=lawful), |random| {
                    let sheet = complex(random);
                    holds(&sheet, &configurations::any(random, &sheet.complex))
                });
            }
        }
    }

    /// Lists of states, and counts.
    fn bases(&mut self) {
        let (five, long) = (filled(5, &pairs(5), 1), sheet(64, &path(64), &[], 1));
        for call in [Call::EnumerateGaugeInvariant, Call::Su2Basis] {
            for sheet in written_down() {
                self.put(call, on(&sheet));
            }
            self.draw(call, (3, 420), at_least(3), |random| on(&small(random)));
            self.draw(call, (1, 600), at_least(2), |random| on(&wide(random)));
        }
        self.put(Call::Su2Basis, on(&five));
        for call in [Call::CountStates, Call::CountEntries, Call::Su2CountStates, Call::Su2CountEntries] {
            for sheet in [&sheet(1, &[], &[], 1), &triangle(1), &tetrahedron(), &two_triangles(), &five, &long] {
                self.put(call, on(sheet));
            }
            // many states and masks
            self.put(call, on(&filled(7, &pairs(7)[..14], 1)));
            self.draw(call, (2, 200), at_least(2), |random| on(&small(random)));
        }
        for call in [Call::CountStates, Call::CountEntries] {
            self.put(call, on(&triangle(MOST_LAMBDA)));
            self.put(call, on(&filled(4, &pairs(4), 5)));
        }
    }

    fn places(&mut self) {
        let holds = |sheet: &Sheet, values: &[i32]| on(sheet).with(Field::Configuration, values);
        self.put(Call::ConfigToIndex, holds(&sheet(1, &[], &[], 0), &[]));
        for values in [[-1, 1, -1], [0, 0, 0], [1, -1, 1], [1, 0, 0], [2, -2, 2], [i32::MIN, i32::MAX, 0]] {
            self.put(Call::ConfigToIndex, holds(&triangle(1), &values));
        }
        self.put(Call::ConfigToIndex, holds(&tetrahedron(), &[-1, 1, 0, -1, 0, 0]));
        for answers in [1..=i64::MAX, -17..=-17] {
            for (how_many, complex) in [(3, small as Source), (1, wide)] {
                self.draw(Call::ConfigToIndex, (how_many, 400), told(answers.clone()), |random| {
                    let sheet = complex(random);
                    let values = basis::<Basis, _>(&sheet, |basis| place_runs::any_configuration(random, basis));
                    holds(&sheet, &values)
                });
            }
        }
    }

    fn shifts(&mut self) {
        let shifted = |sheet: &Sheet, values: &[i32], edge: u64, delta: i32| {
            on(sheet).with(Field::Numbers, &[edge]).with(Field::Configuration, values).with(Field::Delta, &[delta])
        };
        // to a state, from one that is none and from one that is; out of the band; to what is no state
        for (values, edge, delta) in [
            ([0, -1, 1], 0, 1),
            ([1, -1, 1], 2, 0),
            ([i32::MAX, 0, 0], 0, -i32::MAX),
            ([1, -1, 1], 0, 1),
            ([0, 0, 0], 1, i32::MIN),
            ([0, 0, 0], 0, 1),
            ([7, 0, 0], 2, -1),
        ] {
            self.put(Call::ApplyShift, shifted(&triangle(1), &values, edge, delta));
        }
        for answers in [1..=i64::MAX, -16..=-16, -17..=-17] {
            for (how_many, complex) in [(3, small as Source), (1, wide)] {
                self.draw(Call::ApplyShift, (how_many, 400), told(answers.clone()), |random| {
                    let sheet = complex(random);
                    let edge = random.below(sheet.complex.edges.len() as u64 + 1);
                    let (mut values, delta) = basis::<Basis, _>(&sheet, |basis| {
                        (place_runs::any_configuration(random, basis), place_runs::any_delta(random, basis))
                    });
                    // mostly so that the shift leads to the one picked
                    if let Some(value) = values.get_mut(edge as usize).filter(|_| !random.one_in(4)) {
                        *value = value.wrapping_sub(delta);
                    }
                    shifted(&sheet, &values, edge, delta)
                });
            }
        }
        let of = |sheet: &Sheet, triangle: u64, state: u64| on(sheet).with(Field::Numbers, &[triangle, state]);
        for (sheet, triangle, state) in [
            (triangle(0), 0, 0),
            (triangle(1), 0, 0),
            (triangle(1), 0, 1),
            (triangle(1), 0, 2),
            (triangle(2), 0, 3),
            (triangle(2), 0, 4),
            (tetrahedron(), 3, 7),
        ] {
            self.put(Call::ApplyTriangleShift, of(&sheet, triangle, state));
        }
        for (how_many, answers) in [(4, 1..=i64::MAX), (3, -16..=-16)] {
            self.draw(Call::ApplyTriangleShift, (how_many, 420), told(answers), |random| {
                let sheet = small(random);
                let states = basis::<Basis, _>(&sheet, Basis::count);
                of(&sheet, random.below(sheet.complex.triangles.len() as u64 + 1), random.below(states as u64))
            });
        }
    }
}
