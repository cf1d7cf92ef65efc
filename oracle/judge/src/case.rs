//! One comparison: how it is run and counted, and how an input that shows a difference is made small.

use crate::findings::{Faults, Sort, Teller};
use std::collections::BTreeMap;
use std::sync::Mutex;
use std::sync::atomic::{AtomicU64, Ordering};
use std::time::{Duration, Instant};

/// What is counted apart in the last line.
#[derive(Clone, Copy, PartialEq, Eq, PartialOrd, Ord)]
pub enum Kind {
    FromPentachora,
    TriangleEdges,
    SheetMade,
    SheetRead,
    ReadBack,
    WrittenAgain,
    Trees,
    Loops,
    Su2Loops,
    Lawful,
    NotLawful,
    LawfulBeyond,
    NotLawfulBeyond,
    NothingFound,
    VertexFound,
    NothingFoundBeyond,
    VertexFoundBeyond,
    Listings,
    Places,
    PlacesOrFindings,
    EdgeShifts,
    EdgeShiftsBeyond,
    ShiftsOrFindings,
    ShiftsOrFindingsBeyond,
    TriangleShifts,
    Masks,
    U1Params,
    Su2Params,
    Dense,
    Su2Dense,
    StatesCounted,
    MasksCounted,
    EntriesCounted,
    Su2EntriesCounted,
    Rows,
    Su2Rows,
    Su2Products,
    Su2Expectations,
    Su2Passes,
    Products,
    Applied,
    Squares,
    Expectations,
}

impl Kind {
    fn name(self) -> &'static str {
        match self {
            Kind::FromPentachora => "complexes from pentachora",
            Kind::TriangleEdges => "triangles' edges",
            Kind::SheetMade => "sheets made",
            Kind::SheetRead => "sheets read",
            Kind::ReadBack => "made sheets read back",
            Kind::WrittenAgain => "read sheets written again",
            Kind::Trees => "spanning trees",
            Kind::Loops => "lists of loops",
            Kind::Su2Loops => "two-valued lists of loops",
            Kind::Lawful => "lawful configurations",
            Kind::NotLawful => "other configurations",
            Kind::LawfulBeyond => "lawful ones beyond the Rust",
            Kind::NotLawfulBeyond => "other ones beyond the Rust",
            Kind::NothingFound => "laws with nothing found",
            Kind::VertexFound => "laws with a vertex found",
            Kind::NothingFoundBeyond => "laws with nothing found beyond the Rust",
            Kind::VertexFoundBeyond => "laws with a vertex found beyond the Rust",
            Kind::Listings => "lists of states",
            Kind::Places => "places",
            Kind::PlacesOrFindings => "places or findings",
            Kind::EdgeShifts => "edges' shifts",
            Kind::EdgeShiftsBeyond => "edges' shifts beyond the Rust",
            Kind::ShiftsOrFindings => "edges' shifts or findings",
            Kind::ShiftsOrFindingsBeyond => "edges' shifts or findings beyond the Rust",
            Kind::TriangleShifts => "triangles' shifts",
            Kind::Masks => "lists of masks",
            Kind::U1Params => "couplings",
            Kind::Su2Params => "two-valued couplings",
            Kind::Dense => "dense matrices",
            Kind::Su2Dense => "two-valued dense matrices",
            Kind::StatesCounted => "states counted",
            Kind::MasksCounted => "masks counted",
            Kind::EntriesCounted => "entries counted",
            Kind::Su2EntriesCounted => "two-valued entries counted",
            Kind::Rows => "row lists",
            Kind::Su2Rows => "two-valued row lists",
            Kind::Su2Products => "two-valued products",
            Kind::Su2Expectations => "two-valued expectations",
            Kind::Su2Passes => "two-valued expectations by passes",
            Kind::Products => "products",
            Kind::Applied => "products without a matrix",
            Kind::Squares => "squares of the field",
            Kind::Expectations => "expectations along paths",
        }
    }

    /// The refusals that a whole run is to meet.
    fn refusals(self) -> &'static [u8] {
        match self {
            Kind::FromPentachora => &[4, 9, 11, 15],
            Kind::TriangleEdges => &[1, 2, 3, 4, 5, 6, 7, 8, 9, 13],
            Kind::SheetMade => &[4, 5, 6, 7, 8, 9, 15],
            Kind::SheetRead => &[1, 2, 3, 4, 5, 6, 7, 8, 9],
            Kind::ReadBack | Kind::WrittenAgain => &[],
            Kind::Lawful | Kind::LawfulBeyond | Kind::NotLawfulBeyond => &[],
            Kind::NothingFound | Kind::NothingFoundBeyond | Kind::VertexFoundBeyond => &[],
            Kind::Trees | Kind::Loops | Kind::Su2Loops => &[1, 2, 3, 4, 5, 6, 7, 8, 9, 15],
            Kind::NotLawful | Kind::VertexFound => &[1, 2, 3, 4, 5, 6, 7, 8, 9, 12],
            Kind::Listings | Kind::Masks => &[1, 2, 3, 4, 5, 6, 7, 8, 9, 10, 15],
            Kind::Places | Kind::PlacesOrFindings => &[1, 2, 3, 4, 5, 6, 7, 8, 9, 10, 12, 15, 17],
            Kind::EdgeShifts | Kind::ShiftsOrFindings => &[1, 2, 3, 4, 5, 6, 7, 8, 9, 10, 12, 13, 15, 16, 17],
            Kind::EdgeShiftsBeyond | Kind::ShiftsOrFindingsBeyond => &[16],
            Kind::TriangleShifts => &[1, 2, 3, 4, 5, 6, 7, 8, 9, 10, 13, 15, 16],
            Kind::U1Params | Kind::Su2Params => &[14],
            Kind::Dense | Kind::Su2Dense | Kind::Rows | Kind::Su2Rows | Kind::Su2Products | Kind::Applied | Kind::Squares => {
                &[1, 2, 3, 4, 5, 6, 7, 8, 9, 10, 12, 14, 15]
            }
            Kind::Expectations | Kind::Su2Expectations | Kind::Su2Passes => &[1, 2, 3, 4, 5, 6, 7, 8, 9, 10, 12, 13, 14, 15],
            Kind::StatesCounted | Kind::MasksCounted | Kind::EntriesCounted | Kind::Su2EntriesCounted => {
                &[1, 2, 3, 4, 5, 6, 7, 8, 9, 10]
            }
            Kind::Products => &[12, 13, 14, 15],
        }
    }

    /// Whether some input is accepted: a sum beyond 32 bits never is.
    fn accepts(self) -> bool {
        !matches!(self, Kind::EdgeShiftsBeyond | Kind::ShiftsOrFindingsBeyond)
    }

    const ALL: [Kind; 43] = [
        Kind::FromPentachora,
        Kind::TriangleEdges,
        Kind::SheetMade,
        Kind::SheetRead,
        Kind::ReadBack,
        Kind::WrittenAgain,
        Kind::Trees,
        Kind::Loops,
        Kind::Su2Loops,
        Kind::Lawful,
        Kind::NotLawful,
        Kind::LawfulBeyond,
        Kind::NotLawfulBeyond,
        Kind::NothingFound,
        Kind::VertexFound,
        Kind::NothingFoundBeyond,
        Kind::VertexFoundBeyond,
        Kind::Listings,
        Kind::Places,
        Kind::PlacesOrFindings,
        Kind::EdgeShifts,
        Kind::EdgeShiftsBeyond,
        Kind::ShiftsOrFindings,
        Kind::ShiftsOrFindingsBeyond,
        Kind::TriangleShifts,
        Kind::Masks,
        Kind::U1Params,
        Kind::Su2Params,
        Kind::Dense,
        Kind::Su2Dense,
        Kind::StatesCounted,
        Kind::MasksCounted,
        Kind::EntriesCounted,
        Kind::Su2EntriesCounted,
        Kind::Rows,
        Kind::Su2Rows,
        Kind::Su2Products,
        Kind::Su2Expectations,
        Kind::Su2Passes,
        Kind::Products,
        Kind::Applied,
        Kind::Squares,
        Kind::Expectations,
    ];
}

/// How many comparisons were made, by kind and by what was expected (0 for an accepted input, else the refusal).
#[derive(Default)]
pub struct Tally {
    counts: BTreeMap<(Kind, u8), u64>,
    /// how often a call told a finding of a sort
    found: BTreeMap<(Teller, Sort), u64>,
}

impl Tally {
    pub fn count(&mut self, kind: Kind, expected: u8) {
        *self.counts.entry((kind, expected)).or_default() += 1;
    }

    pub fn found(&mut self, teller: Teller, faults: &Faults) {
        for sort in faults.sorts() {
            *self.found.entry((teller, sort)).or_default() += 1;
        }
    }

    fn times(&self, teller: Teller, sort: Sort) -> u64 {
        self.found.get(&(teller, sort)).copied().unwrap_or(0)
    }

    fn of(&self, kind: Kind) -> u64 {
        self.counts.range((kind, 0)..=(kind, u8::MAX)).map(|(_, count)| count).sum()
    }

    pub fn print_answers(&self) {
        for kind in Kind::ALL {
            let met = |expected: u8| self.counts.get(&(kind, expected)).copied().unwrap_or(0);
            let refused: Vec<String> = kind.refusals().iter().map(|&number| format!("{number}: {}", met(number))).collect();
            let refused = if refused.is_empty() { String::new() } else { format!(", refused {}", refused.join(", ")) };
            println!("{}: accepted {}{refused}", kind.name(), met(0));
        }
        for teller in Teller::ALL {
            let numbers = teller.numbers().into_iter();
            let told = numbers.clone().filter(|&sort| self.times(teller, sort) > 0).count();
            let sorts: Vec<String> =
                teller.sorts().into_iter().map(|sort| format!("{}: {}", sort.name(), self.times(teller, sort))).collect();
            println!("{} told {told} of {} vertices and edges, {}", teller.name(), numbers.len(), sorts.join(", "));
        }
    }

    /// The kinds with an answer that no input asked for, and the findings that no call told: then the run itself is too thin.
    pub fn missed(&self) -> Vec<String> {
        let mut missed = vec![];
        for kind in Kind::ALL {
            let accepted: &[u8] = if kind.accepts() { &[0] } else { &[] };
            for &expected in accepted.iter().chain(kind.refusals()) {
                if !self.counts.contains_key(&(kind, expected)) {
                    missed.push(format!("{} {expected}", kind.name()));
                }
            }
        }
        for teller in Teller::ALL {
            let sorts = [teller.numbers(), teller.sorts()].concat().into_iter();
            let never = sorts.filter(|&sort| self.times(teller, sort) == 0);
            missed.extend(never.map(|sort| format!("{} {}", teller.name(), sort.name())));
        }
        missed
    }

    pub fn last_line(&self) -> String {
        let met = Kind::ALL.into_iter().filter(|&kind| self.of(kind) > 0);
        let kinds: Vec<String> = met.map(|kind| format!("{} {}", self.of(kind), kind.name())).collect();
        let total: u64 = self.counts.values().sum();
        format!("judge: {total} comparisons, no difference: {}", kinds.join(", "))
    }
}

pub trait Case: Clone + Send + 'static {
    /// Calls both sides; the text says what differs.
    fn compare(&self, tally: &mut Tally) -> Result<(), String>;
    /// Inputs to try in its place; only those that are smaller are looked at.
    fn simpler(&self) -> Vec<Self>;
    fn size(&self) -> Vec<u128>;
    fn show(&self) -> String;
}

/// Compares one input. A difference is shown with the smallest input that could be found for it, and ends the program.
pub fn run<C: Case>(case: &C, tally: &mut Tally) {
    enter(case);
    if let Err(what) = case.compare(tally) {
        let (case, what) = smallest(case.clone(), what);
        println!("DIFFERENCE: {what}\n{}", case.show());
        std::process::exit(1);
    }
}

fn smallest<C: Case>(mut case: C, mut what: String) -> (C, String) {
    let mut unused = Tally::default();
    let mut tries = 0;
    let end = Instant::now() + Duration::from_secs(60);
    'smaller: loop {
        let size = case.size();
        for other in case.simpler() {
            tries += 1;
            if tries > 200_000 || Instant::now() > end {
                return (case, what);
            }
            if other.size() < size {
                enter(&other);
                if let Err(still) = other.compare(&mut unused) {
                    (case, what) = (other, still);
                    continue 'smaller;
                }
            }
        }
        return (case, what);
    }
}

// The input under way, so that it can be shown where a call does not come back.

type Shown = Box<dyn Fn() -> String + Send>;
static UNDER_WAY: Mutex<Option<Shown>> = Mutex::new(None);
static ENTERED: AtomicU64 = AtomicU64::new(0);

fn enter<C: Case>(case: &C) {
    let case = case.clone();
    *UNDER_WAY.lock().unwrap() = Some(Box::new(move || case.show()));
    ENTERED.fetch_add(1, Ordering::Relaxed);
}

fn show_under_way(what: &str) {
    let shown = match UNDER_WAY.try_lock() {
        Ok(input) => input.as_ref().map(|show| show()).unwrap_or_default(),
        Err(_) => String::new(),
    };
    println!("DIFFERENCE: {what}\n{shown}");
}

/// The seconds that this process has had a processor, where the system tells them.
fn processor_seconds() -> Option<u64> {
    let told = std::fs::read_to_string("/proc/self/stat").ok()?;
    let fields: Vec<&str> = told.rsplit_once(')')?.1.split_whitespace().collect();
    let ticks = |field: usize| fields.get(field)?.parse::<u64>().ok();
    Some((ticks(11)? + ticks(12)?) / 100)
}

/// From now on a call that takes a minute of processor time, or that the system stops, is told with its input. Where other work has the
/// processors a call may stay away for longer; after a quarter of an hour it is told all the same.
pub fn watch() {
    std::thread::spawn(|| {
        let (mut last, mut seconds, mut begun) = (u64::MAX, 0, 0);
        loop {
            std::thread::sleep(Duration::from_secs(1));
            let now = ENTERED.load(Ordering::Relaxed);
            let used = processor_seconds();
            if now != last {
                (last, seconds, begun) = (now, 0, used.unwrap_or(0));
            }
            seconds += 1;
            let busy = used.map_or(seconds, |used| used - begun);
            if busy >= 60 || seconds >= 900 {
                show_under_way("a call has not come back for a minute");
                std::process::exit(1);
            }
        }
    });
    #[cfg(unix)]
    stopped::tell();
}

#[cfg(unix)]
mod stopped {
    unsafe extern "C" {
        fn signal(number: i32, handler: extern "C" fn(i32)) -> usize;
        fn _exit(code: i32) -> !;
    }

    // illegal instruction, abort, arithmetic, bad address
    const NUMBERS: [i32; 4] = [4, 6, 8, 11];

    extern "C" fn handler(number: i32) {
        super::show_under_way(&format!("the system stopped a call with signal {number}"));
        use std::io::Write;
        let _ = std::io::stdout().flush();
        unsafe { _exit(1) }
    }

    pub fn tell() {
        for number in NUMBERS {
            unsafe { signal(number, handler) };
        }
    }
}
