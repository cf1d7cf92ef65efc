//! What is wrong with a configuration, and what of it the calls with `_finding` tell. The Rust only knows whether anything is wrong: with
//! the law for values within its range, and for any values whether there is a place.

use crate::lent::Lent;
use crate::reference::{self, Complex, Sheet};
use crate::rust;

/// Everything that is wrong with a configuration.
#[derive(Clone, Default)]
pub struct Faults {
    /// the vertices that break the law, rising, each with what ends there less what starts there
    vertices: Vec<(u64, i128)>,
    /// the edges whose values are not within ±L, rising; of a law alone none
    edges: Vec<u64>,
}

/// What is told of that.
#[derive(Clone, Copy, PartialEq, Debug)]
pub enum Finding {
    Law { vertex: u64, excess: i64 },
    Band { edge: u64 },
}

impl Faults {
    /// Of the law alone, and whether the Rust could be asked.
    pub fn of_law(complex: &Complex, configuration: &[i32]) -> Result<(bool, Faults), String> {
        let excess = |vertex: u64| sum_at(complex, configuration, vertex, 1) - sum_at(complex, configuration, vertex, 0);
        let sums = (0..complex.vertices).map(|vertex| (vertex, excess(vertex)));
        let vertices: Vec<(u64, i128)> = sums.filter(|&(_, excess)| excess != 0).collect();
        let lawful = vertices.is_empty();
        if lawful != reference::lawful(complex, configuration) {
            return Err("the judge's own finding and its law differ".into());
        }
        match rust::check_gauss_law(complex, configuration) {
            Some(by_rust) if by_rust != lawful => Err("the judge's own sums and the Rust's differ".into()),
            by_rust => Ok((by_rust.is_some(), Faults { vertices, edges: vec![] })),
        }
    }

    /// Of law and band, where the Rust has a place for the configuration or has none.
    pub fn of_place(sheet: &Sheet, configuration: &[i32], listed: bool) -> Result<Faults, String> {
        let (_, mut faults) = Faults::of_law(&sheet.complex, configuration)?;
        let most = sheet.lambda as i32;
        let outside = (0..).zip(configuration).filter(|&(_, value)| !(-most..=most).contains(value));
        faults.edges = outside.map(|(number, _)| number).collect();
        if faults.none() == listed { Ok(faults) } else { Err("the judge's own finding and the Rust's place differ".into()) }
    }

    pub fn none(&self) -> bool {
        self.vertices.is_empty() && self.edges.is_empty()
    }

    pub fn outside(&self, edge: u64) -> bool {
        self.edges.contains(&edge)
    }

    /// The law is told first, and of each the lowest number.
    pub fn finding(&self) -> Option<Finding> {
        let by_law = self.vertices.first().map(|&(vertex, excess)| Finding::Law { vertex, excess: excess as i64 });
        by_law.or(self.edges.first().map(|&edge| Finding::Band { edge }))
    }

    /// The sorts that it is counted under.
    pub fn sorts(&self) -> Vec<Sort> {
        let mut sorts = vec![];
        match self.finding() {
            None => {}
            Some(Finding::Law { vertex, excess }) => {
                let size = if i32::try_from(excess).is_ok() { Size::Fits } else { Size::Beyond };
                sorts.extend([Sort::Vertex(vertex), Sort::Excess(size, excess > 0)]);
                sorts.extend((excess % (1 << 32) == 0).then_some(Sort::WrapsToZero));
                sorts.extend((self.vertices.len() > 2).then_some(Sort::MoreVertices));
                sorts.extend((!self.edges.is_empty()).then_some(Sort::LawAndBand));
            }
            Some(Finding::Band { edge }) => {
                sorts.push(Sort::Edge(edge));
                sorts.extend((self.edges.len() > 1).then_some(Sort::MoreEdges));
            }
        }
        sorts
    }
}

/// The sum of the values on the edges that end at a vertex (1), or that start there (0).
fn sum_at(complex: &Complex, configuration: &[i32], vertex: u64, end: usize) -> i128 {
    let there = complex.edges.iter().zip(configuration).filter(|(edge, _)| u64::from(edge[end]) == vertex);
    there.map(|(_, &value)| i128::from(value)).sum()
}

// ---- what is told

/// A call with a finding answers as the same call without one.
pub fn told_the_same(without: i64, with: i64) -> Result<(), String> {
    if with == without { Ok(()) } else { Err(format!("the answer is {with}, without a finding it is {without}")) }
}

/// Those that a finding goes to.
pub struct Numbers {
    pub vertex: Lent<u64>,
    pub excess: Lent<i64>,
    pub edge: Lent<u64>,
}

impl Numbers {
    pub fn lent() -> Numbers {
        Numbers {
            vertex: Lent::one_of_several("vertex", 0),
            excess: Lent::one_of_several("excess", 1),
            edge: Lent::one_of_several("edge", 2),
        }
    }

    /// The finding stands there, and what is not part of it is as it was.
    pub fn hold(&self, finding: Option<Finding>) -> Result<(), String> {
        let (vertex, excess, edge) = match finding {
            None => (None, None, None),
            Some(Finding::Law { vertex, excess }) => (Some(vertex), Some(excess), None),
            Some(Finding::Band { edge }) => (None, Some(0), Some(edge)),
        };
        self.vertex.holds(vertex.as_slice())?;
        self.excess.holds(excess.as_slice())?;
        self.edge.holds(edge.as_slice())
    }
}

// ---- what is counted

/// The calls that tell a finding.
#[derive(Clone, Copy, PartialEq, Eq, PartialOrd, Ord)]
pub enum Teller {
    Law,
    Place,
    Shift,
}

/// Whether an excess fits 32 bits.
#[derive(Clone, Copy, PartialEq, Eq, PartialOrd, Ord)]
pub enum Size {
    Fits,
    Beyond,
}

#[derive(Clone, Copy, PartialEq, Eq, PartialOrd, Ord)]
pub enum Sort {
    Vertex(u64),
    Edge(u64),
    /// and whether it is above 0
    Excess(Size, bool),
    /// the excess is a multiple of 2^32
    WrapsToZero,
    /// at least three break the law
    MoreVertices,
    LawAndBand,
    /// at least two are outside
    MoreEdges,
}

impl Sort {
    pub fn name(self) -> String {
        match self {
            Sort::Vertex(vertex) => format!("vertex {vertex}"),
            Sort::Edge(edge) => format!("edge {edge}"),
            Sort::Excess(size, above) => {
                let beyond = if size == Size::Beyond { " by more than 32 bits hold" } else { "" };
                format!("excess {} 0{beyond}", if above { "above" } else { "below" })
            }
            Sort::WrapsToZero => "excess a multiple of 2^32".into(),
            Sort::MoreVertices => "three vertices and more".into(),
            Sort::LawAndBand => "law and band".into(),
            Sort::MoreEdges => "two edges and more".into(),
        }
    }
}

impl Teller {
    /// What differs, where the same call without a finding was right.
    pub fn differs(self, what: &str) -> String {
        format!("{}: {what}", self.name())
    }

    pub const ALL: [Teller; 3] = [Teller::Law, Teller::Place, Teller::Shift];

    pub fn name(self) -> &'static str {
        match self {
            Teller::Law => "check_gauss_law_finding",
            Teller::Place => "config_to_index_finding",
            Teller::Shift => "apply_shift_finding",
        }
    }

    /// The vertices and edges of which each is to be told once in a whole run. The excesses add up to 0, so the last of 64 vertices is
    /// never the lowest.
    pub fn numbers(self) -> Vec<Sort> {
        let edges = if self == Teller::Law { 0..0 } else { 0..63 };
        (0..63).map(Sort::Vertex).chain(edges.map(Sort::Edge)).collect()
    }

    /// What else a whole run is to meet.
    pub fn sorts(self) -> Vec<Sort> {
        let signs = [true, false].into_iter();
        let mut sorts: Vec<Sort> =
            signs.flat_map(|above| [Size::Fits, Size::Beyond].map(|size| Sort::Excess(size, above))).collect();
        sorts.extend([Sort::WrapsToZero, Sort::MoreVertices]);
        if self != Teller::Law {
            sorts.extend([Sort::LawAndBand, Sort::MoreEdges]);
        }
        sorts
    }
}
