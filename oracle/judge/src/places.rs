//! `config_to_index` and `config_to_index_finding`: the Rust judges the place, the reference the refusals and the findings.

use crate::basis::{Basis, Given, agree};
use crate::case::{Case, Kind, Tally};
use crate::findings::{Faults, Numbers, Teller, told_the_same};
use crate::lent;
use crate::reference;
use crate::sheets::{hexadecimal, sheet_size};
use crate::shrink::{configuration_size, simpler_configurations, simpler_lambdas};
use zibrotka::calls;

/// `config_to_index` of any bytes and values, without a finding and with one.
#[derive(Clone)]
pub struct Place {
    pub given: Given,
    pub configuration: Vec<i32>,
    /// the work list is this much longer than the basis, or shorter
    pub spare: i64,
}

impl Place {
    pub fn expected(&self, basis: &Basis, room: usize) -> Result<Result<usize, u8>, String> {
        let expected = reference::config_to_index(&basis.sheet, basis.space.states(), &self.configuration, room);
        if matches!(expected, Ok(_) | Err(17)) {
            agree(basis.space.config_to_index(&self.configuration), &expected)?;
        }
        Ok(expected)
    }

    /// What is wrong with a configuration that is judged: with one that has a place nothing.
    fn faults(&self, basis: &Basis) -> Result<Faults, String> {
        Faults::of_place(&basis.sheet, &self.configuration, basis.space.config_to_index(&self.configuration).is_some())
    }
}

impl Case for Place {
    fn compare(&self, tally: &mut Tally) -> Result<(), String> {
        let expected = |basis: &Basis, room: usize| self.expected(basis, room);
        let call = |sheet: &[u8], states: &mut [i32]| calls::config_to_index(sheet, &self.configuration, states);
        let (answer, states) = self.given.compare(Kind::Places, self.spare, expected, call, tally)?;

        let mut lent = Numbers::lent();
        let Numbers { vertex, excess, edge } = &mut lent;
        let call = |sheet: &[u8], states: &mut [i32]| {
            calls::config_to_index_finding(sheet, &self.configuration, states, vertex.number(), excess.number(), edge.number())
        };
        let with = self.given.compare(Kind::PlacesOrFindings, self.spare, expected, call, tally);
        let faults = match self.given.basis()? {
            Ok(basis) if answer == -17 || answer >= 0 => self.faults(basis)?,
            _ => Faults::default(),
        };
        tally.found(Teller::Place, &faults);
        let judged = with.and_then(|(answer_with, states_with)| {
            told_the_same(answer, answer_with)?;
            states_with.same_as(&states)?;
            lent.hold(faults.finding())
        });
        judged.map_err(|what| Teller::Place.differs(&what))
    }

    fn simpler(&self) -> Vec<Place> {
        let with = |bytes: Vec<u8>, configuration: Vec<i32>| Place { given: Given::new(bytes), configuration, spare: self.spare };
        let lower = simpler_lambdas(&self.given.bytes).into_iter().map(|bytes| with(bytes, self.configuration.clone()));
        let both = simpler_configurations(&self.given.bytes, &self.configuration);
        let simpler = lower.chain(both.into_iter().map(|(bytes, configuration)| with(bytes, configuration)));
        simpler.chain([0, 1, -1].map(|spare| Place { spare, ..self.clone() })).collect()
    }

    fn size(&self) -> Vec<u128> {
        let spare = vec![u128::from(self.spare.unsigned_abs())];
        [sheet_size(&self.given.bytes), configuration_size(&self.configuration), spare].concat()
    }

    fn show(&self) -> String {
        let lent = lent::show_spare(self.spare);
        let sheet = hexadecimal(&self.given.bytes);
        format!("config_to_index with and without a finding: sheet {sheet}, configuration {:?}, {lent}", self.configuration)
    }
}
