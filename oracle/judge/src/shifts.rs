//! `apply_shift`, `apply_shift_finding` and `apply_triangle_shift`: the Rust judges what is reached, the reference the refusals, the
//! findings and the sums that would wrap.

use crate::basis::{Basis, Given, agree};
use crate::case::{Case, Kind, Tally};
use crate::findings::{Faults, Numbers, Teller, told_the_same};
use crate::lent::{self, Lent, Room};
use crate::reference::{self, MOST_EDGES};
use crate::sheets::{hexadecimal, sheet_size, simpler_sheets};
use crate::shrink::{configuration_size, simpler_configurations, simpler_lambdas};
use zibrotka::calls;

/// `apply_shift` of any bytes, values and numbers, without a finding and with one.
#[derive(Clone)]
pub struct EdgeShift {
    pub given: Given,
    pub configuration: Vec<i32>,
    pub edge: u64,
    pub delta: i32,
    /// of the work list and the result
    pub room: Room,
}

type Reached = Result<(Vec<i32>, usize), u8>;

impl EdgeShift {
    /// The kind that is counted, and what is expected.
    pub fn expected(&self, basis: &Basis, rooms: (usize, usize)) -> Result<(Kind, Reached), String> {
        let (configuration, edge, delta) = (&self.configuration, self.edge, self.delta);
        let expected = reference::apply_shift(&basis.sheet, basis.space.states(), configuration, edge, delta, rooms);
        if matches!(expected, Ok(_) | Err(16 | 17)) {
            if configuration[edge as usize].checked_add(delta).is_none() {
                return Ok((Kind::EdgeShiftsBeyond, expected));
            }
            agree(basis.space.apply_shift(configuration, edge as usize, delta), &expected)?;
        }
        Ok((Kind::EdgeShifts, expected))
    }

    /// What is wrong with the shifted configuration, where its sum is within the band: with one that has a place nothing.
    fn faults(&self, basis: &Basis) -> Result<Faults, String> {
        let mut shifted = self.configuration.clone();
        shifted[self.edge as usize] += self.delta;
        let faults = Faults::of_place(&basis.sheet, &shifted, basis.space.config_to_index(&shifted).is_some())?;
        if faults.outside(self.edge) { Err("the judge finds the shifted edge outside the band".into()) } else { Ok(faults) }
    }

    /// One of the two calls: with numbers that are lent the one that tells a finding.
    fn call(&self, rooms: (usize, usize), numbers: Option<&mut Numbers>) -> Left {
        let (mut states, mut result) = (Lent::new("states", rooms.0), Lent::new("result", rooms.1));
        let (sheet, configuration, shifted, delta) = (&self.given.bytes, &self.configuration, self.edge, self.delta);
        let answer = match numbers {
            None => calls::apply_shift(sheet, configuration, shifted, delta, states.list(), result.list()),
            Some(Numbers { vertex, excess, edge }) => calls::apply_shift_finding(
                sheet,
                configuration,
                shifted,
                delta,
                states.list(),
                result.list(),
                vertex.number(),
                excess.number(),
                edge.number(),
            ),
        };
        Left { answer, states, result }
    }
}

/// What one of the two calls answered and left.
struct Left {
    answer: i64,
    states: Lent<i32>,
    result: Lent<i32>,
}

impl Left {
    fn same_as(&self, without: &Left) -> Result<(), String> {
        told_the_same(without.answer, self.answer)?;
        self.states.same_as(&without.states)?;
        self.result.same_as(&without.result)
    }
}

impl Case for EdgeShift {
    fn compare(&self, tally: &mut Tally) -> Result<(), String> {
        let n_edges = self.given.basis()?.map_or(MOST_EDGES, |basis| basis.sheet.complex.edges.len());
        let rooms = self.room.lengths(self.given.need()?, n_edges);
        let (kind, expected) = match self.given.basis()? {
            Ok(basis) => self.expected(basis, rooms)?,
            Err(number) => (Kind::EdgeShifts, Err(number)),
        };
        let refusal = expected.as_ref().err().copied().unwrap_or(0);
        let (shifted, place) = expected.map_or_else(|number| (vec![], Err(number)), |(shifted, place)| (shifted, Ok(place)));
        let right = |left: &Left| {
            self.given.told(left.answer, place, &left.states)?;
            left.result.holds(&shifted)
        };
        tally.count(kind, refusal);
        let without = self.call(rooms, None);
        right(&without)?;

        let kind = if kind == Kind::EdgeShifts { Kind::ShiftsOrFindings } else { Kind::ShiftsOrFindingsBeyond };
        tally.count(kind, refusal);
        let faults = match self.given.basis()? {
            Ok(basis) if matches!(refusal, 0 | 17) => self.faults(basis)?,
            _ => Faults::default(),
        };
        tally.found(Teller::Shift, &faults);
        let mut numbers = Numbers::lent();
        let with = self.call(rooms, Some(&mut numbers));
        let judged = right(&with).and_then(|()| with.same_as(&without)).and_then(|()| numbers.hold(faults.finding()));
        judged.map_err(|what| Teller::Shift.differs(&what))
    }

    fn simpler(&self) -> Vec<EdgeShift> {
        let mut simpler = vec![];
        let mut put = |change: &dyn Fn(&mut EdgeShift)| {
            let mut other = self.clone();
            change(&mut other);
            simpler.push(other);
        };
        for edge in smaller(self.edge) {
            put(&|other| other.edge = edge);
        }
        for bytes in simpler_lambdas(&self.given.bytes) {
            put(&|other| other.given = Given::new(bytes.clone()));
        }
        for (bytes, configuration) in simpler_configurations(&self.given.bytes, &self.configuration) {
            // an edge before it may have gone
            for edge in [self.edge, self.edge.saturating_sub(1)] {
                put(&|other| {
                    other.given = Given::new(bytes.clone());
                    other.configuration = configuration.clone();
                    other.edge = edge;
                });
            }
        }
        for delta in [0, 1, -1, self.delta / 2, self.delta - self.delta.signum()] {
            put(&|other| other.delta = delta);
            // from where it leads to the same
            put(&|other| {
                if let Some(value) = other.configuration.get_mut(self.edge as usize) {
                    *value = value.wrapping_add(self.delta).wrapping_sub(delta);
                    other.delta = delta;
                }
            });
        }
        put(&|other| {
            other.configuration.fill(0);
            if let Some(value) = other.configuration.get_mut(self.edge as usize) {
                *value = self.delta.wrapping_neg();
            }
        });
        for room in Room::ALL {
            put(&|other| other.room = room);
        }
        simpler
    }

    fn size(&self) -> Vec<u128> {
        let numbers = vec![u128::from(self.edge), self.room as u128];
        let values = [&self.configuration[..], &[self.delta]].concat();
        [sheet_size(&self.given.bytes), configuration_size(&values), numbers].concat()
    }

    fn show(&self) -> String {
        let EdgeShift { given, configuration, edge, delta, room } = self;
        let sheet = hexadecimal(&given.bytes);
        let numbers = format!("edge {edge}, delta {delta}, room {room:?}");
        format!("apply_shift with and without a finding: sheet {sheet}, configuration {configuration:?}, {numbers}")
    }
}

/// `apply_triangle_shift` of any bytes and numbers.
#[derive(Clone)]
pub struct TriangleShift {
    pub given: Given,
    pub triangle: u64,
    pub state: u64,
    /// the work list is this much longer than the basis, or shorter
    pub spare: i64,
}

impl TriangleShift {
    pub fn expected(&self, basis: &Basis, room: usize) -> Result<Result<usize, u8>, String> {
        let expected = reference::apply_triangle_shift(&basis.sheet, basis.space.states(), self.triangle, self.state, room);
        if matches!(expected, Ok(_) | Err(16)) {
            agree(basis.space.apply_triangle_shift(self.triangle as usize, self.state as usize), &expected)?;
        }
        Ok(expected)
    }
}

impl Case for TriangleShift {
    fn compare(&self, tally: &mut Tally) -> Result<(), String> {
        let call = |sheet: &[u8], states: &mut [i32]| calls::apply_triangle_shift(sheet, self.triangle, self.state, states);
        self.given.compare(Kind::TriangleShifts, self.spare, |basis, room| self.expected(basis, room), call, tally)?;
        Ok(())
    }

    fn simpler(&self) -> Vec<TriangleShift> {
        let mut simpler: Vec<TriangleShift> = vec![];
        simpler.extend(smaller(self.triangle).map(|triangle| TriangleShift { triangle, ..self.clone() }));
        simpler.extend(smaller(self.state).map(|state| TriangleShift { state, ..self.clone() }));
        for bytes in simpler_lambdas(&self.given.bytes).into_iter().chain(simpler_sheets(&self.given.bytes)) {
            let given = Given::new(bytes);
            // a triangle before it may have gone, and states are fewer
            for triangle in [self.triangle, self.triangle.saturating_sub(1)] {
                for state in [self.state, self.state / 2, 0, 1] {
                    simpler.push(TriangleShift { given: given.clone(), triangle, state, ..*self });
                }
            }
        }
        simpler.extend([0, 1, -1].map(|spare| TriangleShift { spare, ..self.clone() }));
        simpler
    }

    fn size(&self) -> Vec<u128> {
        let numbers = [self.triangle, self.state, self.spare.unsigned_abs()].map(u128::from);
        [sheet_size(&self.given.bytes), numbers.to_vec()].concat()
    }

    fn show(&self) -> String {
        let (sheet, lent) = (hexadecimal(&self.given.bytes), lent::show_spare(self.spare));
        format!("apply_triangle_shift: sheet {sheet}, triangle {}, state {}, {lent}", self.triangle, self.state)
    }
}

fn smaller(number: u64) -> [u64; 3] {
    [0, number / 2, number.saturating_sub(1)]
}
