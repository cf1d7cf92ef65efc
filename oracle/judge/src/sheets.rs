//! Sheets: made, read, read back, written again, and the edges of their triangles.

use crate::case::{Case, Kind, Tally};
use crate::lent::{self, Lent};
use crate::pentachora::same_answer;
use crate::reference::{self, Complex, HEADER, Sheet};
use crate::rust;
use zibrotka::calls;

/// Everything that `read_sheet` fills, lent with a pattern.
struct Fields {
    n_vertices: Lent<u64>,
    n_edges: Lent<u64>,
    n_triangles: Lent<u64>,
    lambda: Lent<u64>,
    edges: Lent<u8>,
    triangles: Lent<u8>,
}

impl Fields {
    fn read(bytes: &[u8]) -> (i64, Fields) {
        let mut fields = Fields {
            n_vertices: Lent::new("n_vertices", 1),
            n_edges: Lent::new("n_edges", 1),
            n_triangles: Lent::new("n_triangles", 1),
            lambda: Lent::new("lambda", 1),
            edges: Lent::new("edges", calls::EDGE_BYTES),
            triangles: Lent::new("triangles", calls::TRIANGLE_BYTES),
        };
        let answer = calls::read_sheet(
            bytes,
            fields.n_vertices.number(),
            fields.n_edges.number(),
            fields.n_triangles.number(),
            fields.lambda.number(),
            fields.edges.array(),
            fields.triangles.array(),
        );
        (answer, fields)
    }

    fn hold(&self, sheet: &Sheet) -> Result<(), String> {
        let complex = &sheet.complex;
        self.n_vertices.holds(&[complex.vertices])?;
        self.n_edges.holds(&[complex.edges.len() as u64])?;
        self.n_triangles.holds(&[complex.triangles.len() as u64])?;
        self.lambda.holds(&[sheet.lambda])?;
        self.edges.holds(&complex.flat_edges())?;
        self.triangles.holds(&complex.flat_triangles())
    }

    fn unchanged(&self) -> Result<(), String> {
        for number in [&self.n_vertices, &self.n_edges, &self.n_triangles, &self.lambda] {
            number.unchanged()?;
        }
        self.edges.unchanged()?;
        self.triangles.unchanged()
    }
}

/// `make_sheet`, and `read_sheet` of what it made.
#[derive(Clone)]
pub struct MakeSheet {
    pub n_vertices: u64,
    pub edges: Vec<u8>,
    pub triangles: Vec<u8>,
    pub lambda: u64,
    /// the lent list is this much longer than the sheet would be, or shorter
    pub spare: i64,
}

impl MakeSheet {
    pub fn of(sheet: &Sheet, spare: i64) -> MakeSheet {
        let complex = &sheet.complex;
        MakeSheet {
            n_vertices: complex.vertices,
            edges: complex.flat_edges(),
            triangles: complex.flat_triangles(),
            lambda: sheet.lambda,
            spare,
        }
    }
}

impl Case for MakeSheet {
    fn compare(&self, tally: &mut Tally) -> Result<(), String> {
        let need = HEADER + self.edges.len() / 2 * 2 + self.triangles.len() / 3 * 3;
        let room = lent::length(need, self.spare);
        let expected = reference::make_sheet(self.n_vertices, &self.edges, &self.triangles, self.lambda, room);
        let mut lent = Lent::<u8>::new("sheet", room);
        let answer = calls::make_sheet(self.n_vertices, &self.edges, &self.triangles, self.lambda, lent.list());
        tally.count(Kind::SheetMade, expected.as_ref().err().copied().unwrap_or(0));
        match expected {
            Err(number) => {
                same_answer(answer, -i64::from(number))?;
                lent.unchanged()
            }
            Ok(bytes) => {
                same_answer(answer, bytes.len() as i64)?;
                lent.holds(&bytes)?;
                tally.count(Kind::ReadBack, 0);
                let (answer, fields) = Fields::read(&lent.list()[..bytes.len()]);
                same_answer(answer, 0).map_err(|what| format!("reading back: {what}"))?;
                let said = reference::read_sheet(&bytes).map_err(|_| "the judge's own reader refuses what its encoder wrote")?;
                fields.hold(&said).map_err(|what| format!("reading back: {what}"))
            }
        }
    }

    fn simpler(&self) -> Vec<MakeSheet> {
        let mut simpler = vec![];
        let mut put = |change: &dyn Fn(&mut MakeSheet)| {
            let mut other = self.clone();
            change(&mut other);
            simpler.push(other);
        };
        put(&|other| other.triangles.clear());
        put(&|other| other.edges.clear());
        for at in 0..self.triangles.len() / 3 {
            put(&|other| drop(other.triangles.drain(3 * at..3 * at + 3)));
        }
        for at in 0..self.edges.len() / 2 {
            put(&|other| drop(other.edges.drain(2 * at..2 * at + 2)));
        }
        // a vertex goes with everything at it, and the later ones move up
        for gone in 0..self.n_vertices.min(64) as u8 {
            put(&|other| {
                other.n_vertices -= 1;
                other.edges = without(&self.edges, 2, gone);
                other.triangles = without(&self.triangles, 3, gone);
            });
        }
        put(&|other| other.edges.truncate(self.edges.len().saturating_sub(1)));
        put(&|other| other.triangles.truncate(self.triangles.len().saturating_sub(1)));
        for fewer in [1, self.n_vertices / 2, self.n_vertices.saturating_sub(1)] {
            put(&|other| other.n_vertices = fewer);
        }
        for less in [0, self.lambda / 2, self.lambda.saturating_sub(1)] {
            put(&|other| other.lambda = less);
        }
        for at in 0..self.edges.len() {
            for value in [0, self.edges[at] / 2, self.edges[at].saturating_sub(1)] {
                put(&|other| other.edges[at] = value);
            }
        }
        for at in 0..self.triangles.len() {
            for value in [0, self.triangles[at] / 2, self.triangles[at].saturating_sub(1)] {
                put(&|other| other.triangles[at] = value);
            }
        }
        for spare in [0, 1, -1] {
            put(&|other| other.spare = spare);
        }
        simpler
    }

    fn size(&self) -> Vec<u128> {
        let sum: u128 = self.edges.iter().chain(&self.triangles).map(|&vertex| u128::from(vertex)).sum();
        vec![
            (self.edges.len() + self.triangles.len()) as u128,
            u128::from(self.n_vertices),
            u128::from(self.lambda),
            sum,
            u128::from(self.spare.unsigned_abs()),
        ]
    }

    fn show(&self) -> String {
        format!(
            "make_sheet: {} vertices, edges {:?}, triangles {:?}, L {}, lent list {} bytes longer than the sheet",
            self.n_vertices, self.edges, self.triangles, self.lambda, self.spare
        )
    }
}

/// `read_sheet`, and `make_sheet` of what it read.
#[derive(Clone)]
pub struct ReadSheet {
    pub bytes: Vec<u8>,
}

impl Case for ReadSheet {
    fn compare(&self, tally: &mut Tally) -> Result<(), String> {
        let expected = reference::read_sheet(&self.bytes);
        tally.count(Kind::SheetRead, expected.as_ref().err().copied().unwrap_or(0));
        let (answer, mut fields) = Fields::read(&self.bytes);
        match expected {
            Err(number) => {
                same_answer(answer, -i64::from(number))?;
                fields.unchanged()
            }
            Ok(sheet) => {
                same_answer(answer, 0)?;
                fields.hold(&sheet)?;
                tally.count(Kind::WrittenAgain, 0);
                let (n_edges, n_triangles) = (*fields.n_edges.number() as usize, *fields.n_triangles.number() as usize);
                let mut again = Lent::<u8>::new("sheet", self.bytes.len() + 5);
                let answer = calls::make_sheet(
                    *fields.n_vertices.number(),
                    &fields.edges.list()[..2 * n_edges],
                    &fields.triangles.list()[..3 * n_triangles],
                    *fields.lambda.number(),
                    again.list(),
                );
                same_answer(answer, self.bytes.len() as i64).map_err(|what| format!("writing again: {what}"))?;
                again.holds(&self.bytes).map_err(|what| format!("writing again: {what}"))
            }
        }
    }

    fn simpler(&self) -> Vec<ReadSheet> {
        simpler_sheets(&self.bytes).into_iter().map(|bytes| ReadSheet { bytes }).collect()
    }

    fn size(&self) -> Vec<u128> {
        sheet_size(&self.bytes)
    }

    fn show(&self) -> String {
        format!("read_sheet: {}", hexadecimal(&self.bytes))
    }
}

/// `tri_edge_indices` of every triangle of a sheet, and of numbers past them.
#[derive(Clone)]
pub struct TriangleEdges {
    pub sheet: Vec<u8>,
}

impl TriangleEdges {
    fn one(&self, triangle: u64, expected: Result<[u64; 3], u8>, tally: &mut Tally) -> Result<(), String> {
        tally.count(Kind::TriangleEdges, expected.err().unwrap_or(0));
        let mut indices = Lent::<u64>::new("indices", 3);
        let answer = calls::tri_edge_indices(&self.sheet, triangle, indices.array());
        let compared = match expected {
            Ok(numbers) => same_answer(answer, 0).and_then(|()| indices.holds(&numbers)),
            Err(number) => same_answer(answer, -i64::from(number)).and_then(|()| indices.unchanged()),
        };
        compared.map_err(|what| format!("triangle {triangle}: {what}"))
    }
}

impl Case for TriangleEdges {
    fn compare(&self, tally: &mut Tally) -> Result<(), String> {
        let sheet = match reference::read_sheet(&self.sheet) {
            Ok(sheet) => sheet,
            Err(number) => return [0, 1, u64::MAX].iter().try_for_each(|&triangle| self.one(triangle, Err(number), tally)),
        };
        let record = rust::filled(&sheet.complex);
        let count = sheet.complex.triangles.len();
        for triangle in 0..count {
            self.one(triangle as u64, Ok(rust::tri_edge_indices(&record, triangle)), tally)?;
        }
        let past = count as u64;
        for triangle in [past, past + 1, past + 256, past + 65_536, 1 << 32, 1 << 63, u64::MAX] {
            self.one(triangle, Err(13), tally)?;
        }
        Ok(())
    }

    fn simpler(&self) -> Vec<TriangleEdges> {
        simpler_sheets(&self.sheet).into_iter().map(|sheet| TriangleEdges { sheet }).collect()
    }

    fn size(&self) -> Vec<u128> {
        sheet_size(&self.sheet)
    }

    fn show(&self) -> String {
        format!("tri_edge_indices: sheet {}", hexadecimal(&self.sheet))
    }
}

pub fn hexadecimal(bytes: &[u8]) -> String {
    let pairs: Vec<String> = bytes.iter().map(|byte| format!("{byte:02X}")).collect();
    format!("{} bytes {}", bytes.len(), pairs.join(" "))
}

pub fn sheet_size(bytes: &[u8]) -> Vec<u128> {
    vec![bytes.len() as u128, bytes.iter().map(|&byte| u128::from(byte)).sum()]
}

/// The simplices of a flat list that do not have a vertex, with the later vertices moved up; what is left over at its end goes too.
fn without(flat: &[u8], per: usize, gone: u8) -> Vec<u8> {
    let kept = flat.chunks_exact(per).filter(|simplex| !simplex.contains(&gone));
    kept.flatten().map(|&vertex| if vertex > gone { vertex - 1 } else { vertex }).collect()
}

/// Sheets to try in the place of one: whole simplices and vertices go where the counts fit the length, then single bytes.
pub fn simpler_sheets(bytes: &[u8]) -> Vec<Vec<u8>> {
    let mut simpler = vec![];
    if bytes.len() >= HEADER {
        let (n_edges, n_triangles) = (usize::from(bytes[6]), usize::from(bytes[7]) + 256 * usize::from(bytes[8]));
        if bytes.len() == HEADER + 2 * n_edges + 3 * n_triangles {
            let (edges, triangles) = bytes[HEADER..].split_at(2 * n_edges);
            let mut put = |vertices: u8, edges: &[u8], triangles: &[u8]| {
                let mut other = bytes[..HEADER].to_vec();
                let count = triangles.len() / 3;
                other[5..9].copy_from_slice(&[vertices, (edges.len() / 2) as u8, (count % 256) as u8, (count / 256) as u8]);
                simpler.push([&other[..], edges, triangles].concat());
            };
            put(bytes[5], edges, &[]);
            for gone in 0..bytes[5] {
                put(bytes[5] - 1, &without(edges, 2, gone), &without(triangles, 3, gone));
            }
            for at in (0..triangles.len()).step_by(3) {
                put(bytes[5], edges, &[&triangles[..at], &triangles[at + 3..]].concat());
            }
            for at in (0..edges.len()).step_by(2) {
                put(bytes[5], &[&edges[..at], &edges[at + 2..]].concat(), triangles);
            }
        }
    }
    for at in (0..bytes.len()).rev() {
        simpler.push([&bytes[..at], &bytes[at + 1..]].concat());
    }
    for at in 0..bytes.len() {
        for value in [0, bytes[at] / 2, bytes[at].saturating_sub(1)] {
            let mut other = bytes.to_vec();
            other[at] = value;
            simpler.push(other);
        }
    }
    simpler
}

/// All three calls on one complex and L.
pub fn whole(sheet: &Sheet, tally: &mut Tally) {
    let bytes = reference::encode(sheet);
    crate::case::run(&MakeSheet::of(sheet, 9), tally);
    crate::case::run(&ReadSheet { bytes: bytes.clone() }, tally);
    crate::case::run(&TriangleEdges { sheet: bytes }, tally);
}

/// A sheet of small numbers, written down.
pub fn sheet(vertices: u64, edges: &[[u8; 2]], triangles: &[[u8; 3]], lambda: u64) -> Sheet {
    Sheet { complex: Complex { vertices, edges: edges.to_vec(), triangles: triangles.to_vec() }, lambda }
}
