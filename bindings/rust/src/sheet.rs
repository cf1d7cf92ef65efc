use crate::calls::{self, EDGE_BYTES, SHEET_BYTES, TRIANGLE_BYTES};
use crate::error::ReadError;
use crate::refusal::Refusal;
use crate::told::{below, told, told_as};
use std::fs::{File, OpenOptions};
use std::io::{self, Read, Write};
use std::path::Path;

// Enough for every sheet: a loop for each edge at most, of as many steps as there are edges at most.
const LOOPS: usize = EDGE_BYTES / 2;
const STEPS: usize = LOOPS * LOOPS;

const NEVER: &str = "the library refuses what it made, which its contract rules out";

/// A complex with a truncation, as the library accepted it. It does not change.
#[derive(Clone, Debug, PartialEq, Eq, Hash)]
pub struct Sheet {
    bytes: Vec<u8>,
    n_vertices: usize,
    edges: Vec<[u8; 2]>,
    triangles: Vec<[u8; 3]>,
    truncation: usize,
}

/// The edges of a spanning tree and the others, all by number.
#[derive(Clone, Debug, PartialEq, Eq)]
pub struct SpanningTree {
    /// The edges of the tree, in the order in which they are found from vertex 0.
    pub tree: Vec<usize>,
    /// All other edges, rising.
    pub free_edges: Vec<usize>,
}

/// A step of a path in U(1).
#[derive(Clone, Copy, Debug, PartialEq, Eq, Hash)]
pub struct Step {
    /// The edge's number.
    pub edge: u8,
    /// 1 from the edge's first vertex to its second, -1 back.
    pub direction: i8,
}

impl Sheet {
    /// The sheet in a file. Of a file that is longer than any sheet no more is read than shows that.
    pub fn read(path: impl AsRef<Path>) -> Result<Sheet, ReadError> {
        let mut bytes = Vec::with_capacity(SHEET_BYTES + 1);
        File::open(path)?.take(SHEET_BYTES as u64 + 1).read_to_end(&mut bytes)?;
        Ok(Sheet::from_bytes(&bytes)?)
    }

    /// Writes the sheet's bytes to a file, in the place of what it held. Where writing fails midway, the file may hold a part of the sheet.
    /// `/dev/stdout` and `/dev/stderr` are written from where they stand.
    pub fn write(&self, path: impl AsRef<Path>) -> io::Result<()> {
        // To open these anew would begin at the start of a file, and what was printed there would be lost.
        match path.as_ref().to_str() {
            Some("/dev/stdout") => return write_whole(io::stdout(), &self.bytes),
            Some("/dev/stderr") => return write_whole(io::stderr(), &self.bytes),
            _ => {}
        }
        // It is cut only once all is written. So where nothing can be written, what it held is not lost.
        let mut file = OpenOptions::new().write(true).create(true).truncate(false).open(path)?;
        file.write_all(&self.bytes)?;
        // A device or a pipe has no length.
        if file.metadata()?.is_file() { file.set_len(self.bytes.len() as u64) } else { Ok(()) }
    }

    /// The sheet that some bytes are. Refuses 1 to 9.
    pub fn from_bytes(bytes: &[u8]) -> Result<Sheet, Refusal> {
        let (mut n_vertices, mut n_edges, mut n_triangles, mut lambda) = (0, 0, 0, 0);
        let (mut edges, mut triangles) = ([0; EDGE_BYTES], [0; TRIANGLE_BYTES]);
        let answer =
            calls::read_sheet(bytes, &mut n_vertices, &mut n_edges, &mut n_triangles, &mut lambda, &mut edges, &mut triangles);
        told_as(answer, 0, &[1, 2, 3, 4, 5, 6, 7, 8, 9])?;
        Ok(Sheet {
            bytes: bytes.to_vec(),
            n_vertices: below(n_vertices, 65),
            edges: edges.as_chunks().0[..below(n_edges, 64)].to_vec(),
            triangles: triangles.as_chunks().0[..below(n_triangles, 257)].to_vec(),
            truncation: below(lambda, 1001),
        })
    }

    /// The sheet's bytes.
    pub fn to_bytes(&self) -> Vec<u8> {
        self.bytes.clone()
    }

    /// The sheet of so many vertices, of edges (a, b) and triangles (a, b, c) with rising vertices, and a truncation. Refuses 4, 5, 7, 8
    /// and 9.
    pub fn from_edges(n_vertices: usize, edges: &[[u8; 2]], triangles: &[[u8; 3]], truncation: usize) -> Result<Sheet, Refusal> {
        let mut sheet = [0; SHEET_BYTES];
        let (edges, triangles) = (edges.as_flattened(), triangles.as_flattened());
        let answer = calls::make_sheet(n_vertices as u64, edges, triangles, truncation as u64, &mut sheet);
        let length = told(answer, &[4, 5, 7, 8, 9])?;
        Ok(Sheet::from_bytes(&sheet[..length]).expect(NEVER))
    }

    /// The sheet of all edges and triangles of pentachora, five vertices each in any order, and a truncation. Edges and triangles are
    /// numbered as they first appear, those of a pentachoron in dictionary order. Refuses the first of: 4 of the vertices, 11, 4 of the
    /// edges and triangles, 9, 5.
    pub fn from_pentachora(n_vertices: usize, pentachora: &[[u64; 5]], truncation: usize) -> Result<Sheet, Refusal> {
        let (mut edges, mut triangles, mut n_triangles) = ([0; EDGE_BYTES], [0; TRIANGLE_BYTES], 0);
        let flat = pentachora.as_flattened();
        let answer = calls::from_pentachorons(n_vertices as u64, flat, &mut edges, &mut triangles, &mut n_triangles);
        let n_edges = told(answer, &[4, 9, 11])?;
        let (edges, triangles) = (&edges.as_chunks().0[..n_edges], &triangles.as_chunks().0[..below(n_triangles, 257)]);
        Sheet::from_edges(n_vertices, edges, triangles, truncation)
    }

    /// How many vertices there are, 1 to 64.
    pub fn n_vertices(&self) -> usize {
        self.n_vertices
    }

    /// The edges (a, b) with a < b, by number: 0 to 63 of them.
    pub fn edges(&self) -> &[[u8; 2]] {
        &self.edges
    }

    /// The triangles (a, b, c) with a < b < c, by number: 0 to 256 of them.
    pub fn triangles(&self) -> &[[u8; 3]] {
        &self.triangles
    }

    /// The truncation L, 0 to 1000.
    pub fn truncation(&self) -> usize {
        self.truncation
    }

    /// The numbers of a triangle's edges (a,b), (a,c), (b,c). Refuses 13.
    pub fn tri_edge_indices(&self, triangle: usize) -> Result<[usize; 3], Refusal> {
        let mut indices = [0; 3];
        told_as(calls::tri_edge_indices(&self.bytes, triangle as u64, &mut indices), 0, &[13])?;
        Ok(indices.map(|index| below(index, self.edges.len())))
    }

    /// The spanning tree from vertex 0, and the edges that are not in it.
    pub fn spanning_tree(&self) -> SpanningTree {
        let (mut tree, mut free) = ([0; LOOPS], [0; LOOPS]);
        let answer = calls::spanning_tree(&self.bytes, &mut tree, &mut free);
        let n_free = told(answer, &[]).expect(NEVER);
        let numbers = |list: &[u32]| list.iter().map(|&edge| below(edge.into(), self.edges.len())).collect();
        SpanningTree { tree: numbers(&tree[..self.n_vertices - 1]), free_edges: numbers(&free[..n_free]) }
    }

    /// The fundamental loops: for each free edge (a, b), by rising number, the path in the tree from a to b, then the edge back.
    pub fn loops(&self) -> Vec<Vec<Step>> {
        let (mut starts, mut edges, mut directions) = ([0; LOOPS + 1], [0; STEPS], [0; STEPS]);
        let answer = calls::fundamental_loops(&self.bytes, &mut starts, &mut edges, &mut directions);
        let n = told(answer, &[]).expect(NEVER);
        let step = |i: usize| Step { edge: edges[i], direction: directions[i] };
        starts[..=n].windows(2).map(|ends| (ends[0] as usize..ends[1] as usize).map(step).collect()).collect()
    }

    /// The same as lists of edge numbers, as paths in Z2 are.
    pub fn su2_loops(&self) -> Vec<Vec<u8>> {
        let (mut starts, mut edges) = ([0; LOOPS + 1], [0; STEPS]);
        let answer = calls::su2_fundamental_loops(&self.bytes, &mut starts, &mut edges);
        let n = told(answer, &[]).expect(NEVER);
        starts[..=n].windows(2).map(|ends| edges[ends[0] as usize..ends[1] as usize].to_vec()).collect()
    }
}

fn write_whole(mut stream: impl Write, bytes: &[u8]) -> io::Result<()> {
    stream.write_all(bytes)?;
    stream.flush()
}

/// The sheet's bytes, for [`calls`](crate::calls).
impl AsRef<[u8]> for Sheet {
    fn as_ref(&self) -> &[u8] {
        &self.bytes
    }
}
