//! What the Rust answers to a case of the fixed list.

use super::layout::{Call, Field, Fields, Number, STATES_ROOM};
use crate::amplitudes::{Applied, Expected, Path, Squares};
use crate::basis::{Basis, Given, Listed};
use crate::case::Kind;
use crate::dense::{Ask, Dense, Matrix};
use crate::entries::Reading;
use crate::even_products::{EvenLoop, EvenProduct};
use crate::law::GaussLaw;
use crate::lent::Room;
use crate::listing::Listing;
use crate::loops::Steps;
use crate::masks::{EvenSets, Masks};
use crate::places::Place;
use crate::product::Product;
use crate::reference::{self, Complex, MOST_EDGES};
use crate::row_lists::{Counted, Csr, Rowed, Rows};
use crate::rust::{self, RowLists};
use crate::shifts::{EdgeShift, TriangleShift};
use crate::weights::Weights;

/// Nothing is lent here.
const SPARE: i64 = 0;

/// What a call takes, with the Rust's answers. The port is not asked.
pub fn ask(call: Call, taken: &Fields) -> Result<Fields, String> {
    match call {
        Call::FromPentachorons => pentachora(taken),
        Call::TriEdgeIndices => triangle_edges(taken),
        Call::SpanningTree => tree(taken),
        Call::FundamentalLoops => loops(taken),
        Call::Su2FundamentalLoops => su2_loops(taken),
        Call::CheckGaussLaw => law(taken),
        Call::EnumerateGaugeInvariant => states(taken),
        Call::CountStates => counted::<Basis>(taken, |_, basis| Ok(basis.count())),
        Call::ConfigToIndex => place(taken),
        Call::ApplyShift => shift(taken),
        Call::ApplyTriangleShift => triangle_shift(taken),
        Call::BuildHamiltonian => dense::<Basis>(taken),
        Call::BuildCsr => rows::<Basis>(taken),
        Call::CountEntries => counted::<Basis>(taken, Counted::entries),
        Call::HamiltonianMatvec => applied(taken),
        Call::ElectricFieldSq => squares(taken),
        Call::WilsonLoop => expectation(taken),
        Call::Su2Basis => masks(taken),
        Call::Su2CountStates => counted::<EvenSets>(taken, |_, basis| Ok(basis.count())),
        Call::BuildSu2Hamiltonian => dense::<EvenSets>(taken),
        Call::BuildCsrSu2 => rows::<EvenSets>(taken),
        Call::Su2CountEntries => counted::<EvenSets>(taken, Counted::entries),
        Call::Su2HamiltonianMatvec => even_product(taken),
        Call::Su2WilsonLoop => even_loop(taken, Reading::EdgeSet),
        Call::Matvec => product(taken),
        Call::Su2WilsonPasses => even_loop(taken, Reading::Passes),
    }
}

/// With the number that the call tells.
fn answered(taken: &Fields, told: i64) -> Fields {
    taken.clone().with(Field::Told, &[told])
}

// ---- what is taken

fn refused(number: u8) -> String {
    format!("what it takes is refused by {number}")
}

fn sheet(taken: &Fields) -> Vec<u8> {
    taken.bytes(Field::Sheet).to_vec()
}

fn complex(taken: &Fields) -> Result<Complex, String> {
    Ok(reference::read_sheet(taken.bytes(Field::Sheet)).map_err(refused)?.complex)
}

fn weights(taken: &Fields) -> Result<Weights, String> {
    let given = match taken.array(Field::Numbers)? {
        [0_u64] => false,
        [1] => true,
        [other] => return Err(format!("{other} does not say whether weights are given")),
    };
    Ok(Weights { given, list: taken.list(Field::Weights)? })
}

fn asked_for<const LISTS: usize>(taken: &Fields) -> Result<Ask<LISTS>, String> {
    Ok(Ask { coupling: taken.array(Field::Coupling)?, weights: weights(taken)?, spares: [SPARE; LISTS] })
}

/// A sheet with the Rust's basis.
fn given<B: Listed>(taken: &Fields) -> Given<B> {
    Given::new(sheet(taken))
}

fn basis<B: Listed>(given: &Given<B>) -> Result<&B, String> {
    given.basis()?.map_err(refused)
}

// ---- complexes

fn pentachora(taken: &Fields) -> Result<Fields, String> {
    let ([n_vertices], list) = (taken.array(Field::Numbers)?, taken.list(Field::Pentachora)?);
    reference::pentachora(n_vertices, &list).map_err(refused)?;
    let faces = rust::lists(&rust::from_pentachora(n_vertices, &list));
    reference::after_faces(&faces, usize::MAX, usize::MAX).map_err(refused)?;
    Ok(answered(taken, faces.edges.len() as i64)
        .with(Field::First, &faces.flat_edges())
        .with(Field::Second, &faces.flat_triangles())
        .with(Field::Third, &[faces.triangles.len() as u64]))
}

fn triangle_edges(taken: &Fields) -> Result<Fields, String> {
    let (complex, [triangle]) = (complex(taken)?, taken.array::<u64, 1>(Field::Numbers)?);
    if triangle >= complex.triangles.len() as u64 {
        return Err(refused(13));
    }
    let numbers = rust::tri_edge_indices(&rust::filled(&complex), triangle as usize);
    Ok(answered(taken, 0).with(Field::First, &numbers))
}

fn tree(taken: &Fields) -> Result<Fields, String> {
    let (tree, free) = rust::spanning_tree(&complex(taken)?);
    Ok(answered(taken, free.len() as i64).with(Field::First, &tree).with(Field::Second, &free))
}

fn loops(taken: &Fields) -> Result<Fields, String> {
    let steps = Steps::of(&rust::fundamental_loops(&complex(taken)?));
    Ok(answered(taken, steps.count())
        .with(Field::First, &steps.edges)
        .with(Field::Second, &steps.starts)
        .with(Field::Third, &steps.directions))
}

fn su2_loops(taken: &Fields) -> Result<Fields, String> {
    let steps = Steps::without_directions(&rust::su2_fundamental_loops(&complex(taken)?));
    Ok(answered(taken, steps.count()).with(Field::First, &steps.edges).with(Field::Second, &steps.starts))
}

fn product(taken: &Fields) -> Result<Fields, String> {
    let rows =
        RowLists { starts: taken.list(Field::First)?, columns: taken.list(Field::Second)?, values: taken.list(Field::Weights)? };
    let case = Product { rows, vector: taken.list(Field::Vector)?, spare: SPARE };
    case.judge(usize::MAX).map_err(refused)?;
    let product = rust::matvec(&case.rows, &case.vector);
    Ok(answered(taken, 0).with(Field::Floats, &product))
}

// ---- both modes

fn counted<B: Rowed>(taken: &Fields, count: impl Fn(&Counted<B>, &B) -> Result<usize, String>) -> Result<Fields, String> {
    let case = Counted::<B> { given: given(taken), g_squared: 1.0, weights: Weights::absent() };
    let told = count(&case, basis(&case.given)?)?;
    Ok(answered(taken, told as i64))
}

fn dense<B: Matrix<Entry: Number>>(taken: &Fields) -> Result<Fields, String> {
    let case = Dense::<B> { given: given(taken), ask: asked_for(taken)? };
    let basis = basis(&case.given)?;
    case.judge(basis, [usize::MAX; 2]).map_err(refused)?;
    let matrix = case.matrix(basis)?;
    Ok(answered(taken, basis.count() as i64).with(Field::First, basis.flat()).with(Field::Floats, &matrix))
}

fn rows<B: Csr<Entry: Number>>(taken: &Fields) -> Result<Fields, String> {
    let case = Rows::<B> { given: given(taken), ask: asked_for(taken)? };
    let basis = basis(&case.given)?;
    case.judge(basis, [usize::MAX; 4], [0; 4]).map_err(refused)?;
    let lists = case.lists(basis)?;
    Ok(answered(taken, lists.values.len() as i64)
        .with(Field::First, basis.flat())
        .with(Field::Second, &lists.starts)
        .with(Field::Third, &lists.columns)
        .with(Field::Floats, &lists.values))
}

// ---- U(1)

fn law(taken: &Fields) -> Result<Fields, String> {
    let case = GaussLaw { sheet: sheet(taken), configuration: taken.list(Field::Configuration)? };
    match case.expected()? {
        (true, faults) => Ok(answered(taken, i64::from(faults.map_err(refused)?.none()))),
        (false, _) => Err("a value is too large for the Rust".into()),
    }
}

fn states(taken: &Fields) -> Result<Fields, String> {
    let case = Listing { sheet: sheet(taken), spare: SPARE };
    let (count, states) = case.expected()?.map_err(refused)?;
    Ok(answered(taken, count as i64).with(Field::First, &states))
}

/// A place, with the basis; or minus the refusal where the Rust has None and the scope paper one of these. A basis that the program has no
/// room for would be refused before.
fn placed(taken: &Fields, place: Result<usize, u8>, none: &[u8], basis: &Basis) -> Result<Fields, String> {
    match place {
        Ok(place) => Ok(answered(taken, place as i64).with(Field::First, basis.flat())),
        Err(number) if none.contains(&number) => Ok(answered(taken, -i64::from(number))),
        Err(number) => Err(refused(number)),
    }
}

fn place(taken: &Fields) -> Result<Fields, String> {
    let case = Place { given: given(taken), configuration: taken.list(Field::Configuration)?, spare: SPARE };
    let basis = basis(&case.given)?;
    placed(taken, case.expected(basis, STATES_ROOM)?, &[17], basis)
}

fn shift(taken: &Fields) -> Result<Fields, String> {
    let ([edge], [delta]) = (taken.array(Field::Numbers)?, taken.array(Field::Delta)?);
    let case = EdgeShift { given: given(taken), configuration: taken.list(Field::Configuration)?, edge, delta, room: Room::Exact };
    let basis = basis(&case.given)?;
    let (kind, reached) = case.expected(basis, (STATES_ROOM, MOST_EDGES))?;
    if kind == Kind::EdgeShiftsBeyond {
        return Err("the Rust's sum wraps".into());
    }
    let (shifted, place) = reached.map_or_else(|number| (vec![], Err(number)), |(shifted, place)| (shifted, Ok(place)));
    Ok(placed(taken, place, &[16, 17], basis)?.with(Field::Second, &shifted))
}

fn triangle_shift(taken: &Fields) -> Result<Fields, String> {
    let [triangle, state] = taken.array(Field::Numbers)?;
    let case = TriangleShift { given: given(taken), triangle, state, spare: SPARE };
    let basis = basis(&case.given)?;
    placed(taken, case.expected(basis, STATES_ROOM)?, &[16], basis)
}

fn applied(taken: &Fields) -> Result<Fields, String> {
    let case = Applied { given: given(taken), ask: asked_for(taken)?, vector: taken.list(Field::Vector)? };
    let basis = basis(&case.given)?;
    case.judge(basis, [usize::MAX; 2]).map_err(refused)?;
    let product = case.product(basis)?;
    Ok(answered(taken, basis.count() as i64).with(Field::First, basis.flat()).with(Field::Floats, &product))
}

fn squares(taken: &Fields) -> Result<Fields, String> {
    let case = Squares { given: given(taken), amplitudes: taken.list(Field::Vector)?, spares: [SPARE; 2] };
    let basis = basis(&case.given)?;
    case.judge(basis, [usize::MAX; 2]).map_err(refused)?;
    let squares = case.squares(basis)?;
    Ok(answered(taken, squares.len() as i64).with(Field::First, basis.flat()).with(Field::Floats, &squares))
}

fn expectation(taken: &Fields) -> Result<Fields, String> {
    let path = Path { edges: taken.list(Field::Path)?, directions: taken.list(Field::Directions)? };
    let case = Expected { given: given(taken), amplitudes: taken.list(Field::Vector)?, path, spare: SPARE };
    let basis = basis(&case.given)?;
    case.judge(basis, usize::MAX).map_err(refused)?;
    let expectation = case.expectation(basis)?;
    Ok(answered(taken, 0).with(Field::First, basis.flat()).with(Field::Floats, &expectation))
}

// ---- Z2

fn masks(taken: &Fields) -> Result<Fields, String> {
    let case = Masks { sheet: sheet(taken), spare: SPARE };
    let masks = case.expected(usize::MAX)?.map_err(refused)?;
    Ok(answered(taken, masks.len() as i64).with(Field::First, &masks))
}

fn even_product(taken: &Fields) -> Result<Fields, String> {
    let case = EvenProduct { given: given(taken), ask: asked_for(taken)?, vector: taken.list(Field::Vector)? };
    let basis = basis(&case.given)?;
    case.judge(basis, [usize::MAX; 2]).map_err(refused)?;
    let product = case.product(basis)?;
    Ok(answered(taken, basis.count() as i64).with(Field::First, basis.flat()).with(Field::Floats, &product))
}

/// By passes it is what the Rust answers along the edges that are passed an odd number of times, each named once.
fn even_loop(taken: &Fields, reading: Reading) -> Result<Fields, String> {
    let (vector, path) = (taken.list(Field::Vector)?, taken.list(Field::Path)?);
    let case = EvenLoop { reading, given: given(taken), vector, path, spare: SPARE };
    let basis = basis(&case.given)?;
    case.judge(basis, usize::MAX).map_err(refused)?;
    let expectation = case.expectation(basis)?;
    Ok(answered(taken, 0).with(Field::First, basis.flat()).with(Field::Floats, &[expectation]))
}
