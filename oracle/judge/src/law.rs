//! `spanning_tree`, `check_gauss_law` and `check_gauss_law_finding`: the Rust judges what it can, the reference the refusals, the findings
//! and the values beyond the Rust's range.

use crate::case::{Case, Kind, Tally};
use crate::findings::{Faults, Numbers, Teller, told_the_same};
use crate::lent::{Lent, Room};
use crate::pentachora::same_answer;
use crate::reference::{self, MOST_EDGES};
use crate::rust;
use crate::sheets::{hexadecimal, sheet_size, simpler_sheets};
use crate::shrink::{configuration_size, simpler_configurations};
use zibrotka::calls;

/// `spanning_tree` of any bytes.
#[derive(Clone)]
pub struct SpanningTree {
    pub sheet: Vec<u8>,
    pub room: Room,
}

impl Case for SpanningTree {
    fn compare(&self, tally: &mut Tally) -> Result<(), String> {
        let mut expected = match reference::read_sheet(&self.sheet) {
            Ok(sheet) => {
                let by_rust = rust::spanning_tree(&sheet.complex);
                if by_rust != reference::tree(&sheet.complex) {
                    return Err("the judge's own tree and the Rust's differ".into());
                }
                Ok(by_rust)
            }
            Err(number) => Err(number),
        };
        let need = expected.as_ref().map_or((MOST_EDGES, MOST_EDGES), |(tree, free)| (tree.len(), free.len()));
        let (tree_room, free_room) = self.room.lengths(need.0, need.1);
        if expected.is_ok() && (tree_room < need.0 || free_room < need.1) {
            expected = Err(15);
        }

        let mut tree = Lent::<u32>::new("tree", tree_room);
        let mut free_edges = Lent::<u32>::new("free_edges", free_room);
        let answer = calls::spanning_tree(&self.sheet, tree.list(), free_edges.list());
        tally.count(Kind::Trees, expected.as_ref().err().copied().unwrap_or(0));
        match expected {
            Ok((numbers, free)) => {
                same_answer(answer, free.len() as i64)?;
                tree.holds(&numbers)?;
                free_edges.holds(&free)
            }
            Err(number) => {
                same_answer(answer, -i64::from(number))?;
                tree.unchanged()?;
                free_edges.unchanged()
            }
        }
    }

    fn simpler(&self) -> Vec<SpanningTree> {
        let sheets = simpler_sheets(&self.sheet).into_iter();
        let mut simpler: Vec<SpanningTree> = sheets.map(|sheet| SpanningTree { sheet, room: self.room }).collect();
        simpler.extend(Room::ALL.map(|room| SpanningTree { room, ..self.clone() }));
        simpler
    }

    fn size(&self) -> Vec<u128> {
        [sheet_size(&self.sheet), vec![self.room as u128]].concat()
    }

    fn show(&self) -> String {
        format!("spanning_tree: sheet {}, room {:?}", hexadecimal(&self.sheet), self.room)
    }
}

/// `check_gauss_law` of any bytes and values, without a finding and with one.
#[derive(Clone)]
pub struct GaussLaw {
    pub sheet: Vec<u8>,
    pub configuration: Vec<i32>,
}

impl GaussLaw {
    /// Whether the Rust could be asked, and what is wrong with the configuration; where nothing is it is lawful.
    pub fn expected(&self) -> Result<(bool, Result<Faults, u8>), String> {
        let complex = match reference::read_sheet(&self.sheet) {
            Ok(sheet) => sheet.complex,
            Err(number) => return Ok((true, Err(number))),
        };
        if self.configuration.len() != complex.edges.len() {
            return Ok((true, Err(12)));
        }
        let (in_range, faults) = Faults::of_law(&complex, &self.configuration)?;
        Ok((in_range, Ok(faults)))
    }
}

impl Case for GaussLaw {
    fn compare(&self, tally: &mut Tally) -> Result<(), String> {
        let (in_range, expected) = self.expected()?;
        let lawful = expected.as_ref().map_or_else(|&number| Err(number), |faults| Ok(faults.none()));
        let (kind, with_finding) = match (in_range, lawful) {
            (true, Ok(true)) => (Kind::Lawful, Kind::NothingFound),
            (true, _) => (Kind::NotLawful, Kind::VertexFound),
            (false, Ok(true)) => (Kind::LawfulBeyond, Kind::NothingFoundBeyond),
            (false, _) => (Kind::NotLawfulBeyond, Kind::VertexFoundBeyond),
        };
        tally.count(kind, lawful.err().unwrap_or(0));
        let answer = calls::check_gauss_law(&self.sheet, &self.configuration);
        same_answer(answer, lawful.map_or_else(|number| -i64::from(number), i64::from))?;

        tally.count(with_finding, lawful.err().unwrap_or(0));
        let faults = expected.unwrap_or_default();
        tally.found(Teller::Law, &faults);
        let mut lent = Numbers::lent();
        let Numbers { vertex, excess, .. } = &mut lent;
        let with = calls::check_gauss_law_finding(&self.sheet, &self.configuration, vertex.number(), excess.number());
        let judged = told_the_same(answer, with).and_then(|()| lent.hold(faults.finding()));
        judged.map_err(|what| Teller::Law.differs(&what))
    }

    fn simpler(&self) -> Vec<GaussLaw> {
        let both = simpler_configurations(&self.sheet, &self.configuration);
        both.into_iter().map(|(sheet, configuration)| GaussLaw { sheet, configuration }).collect()
    }

    fn size(&self) -> Vec<u128> {
        [sheet_size(&self.sheet), configuration_size(&self.configuration)].concat()
    }

    fn show(&self) -> String {
        let sheet = hexadecimal(&self.sheet);
        format!("check_gauss_law with and without a finding: sheet {sheet}, configuration {:?}", self.configuration)
    }
}
