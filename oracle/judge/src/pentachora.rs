//! `from_pentachorons`: the Rust judges the edges and triangles, the reference the refusals.

use crate::case::{Case, Kind, Tally};
use crate::lent::{Lent, Room};
use crate::{reference, rust};
use zibrotka::calls;

#[derive(Clone)]
pub struct FromPentachora {
    pub n_vertices: u64,
    pub list: Vec<u64>,
    pub room: Room,
}

impl Case for FromPentachora {
    fn compare(&self, tally: &mut Tally) -> Result<(), String> {
        let mut expected = reference::pentachora(self.n_vertices, &self.list);
        let mut need = (calls::EDGE_BYTES, calls::TRIANGLE_BYTES);
        let mut faces = None;
        if expected.is_ok() {
            let by_rust = rust::lists(&rust::from_pentachora(self.n_vertices, &self.list));
            if reference::faces(self.n_vertices, &self.list) != by_rust {
                return Err("the judge's own reference and the Rust disagree".into());
            }
            need = (2 * by_rust.edges.len(), 3 * by_rust.triangles.len());
            faces = Some(by_rust);
        }
        let (edge_room, triangle_room) = self.room.lengths(need.0, need.1);
        if let Some(faces) = &faces {
            expected = reference::after_faces(faces, edge_room, triangle_room);
        }

        let mut edges = Lent::<u8>::new("edges", edge_room);
        let mut triangles = Lent::<u8>::new("triangles", triangle_room);
        let mut n_triangles = Lent::<u64>::new("n_triangles", 1);
        let answer = calls::from_pentachorons(self.n_vertices, &self.list, edges.list(), triangles.list(), n_triangles.number());
        match (expected, faces) {
            (Ok(()), Some(faces)) => {
                tally.count(Kind::FromPentachora, 0);
                same_answer(answer, faces.edges.len() as i64)?;
                n_triangles.holds(&[faces.triangles.len() as u64])?;
                edges.holds(&faces.flat_edges())?;
                triangles.holds(&faces.flat_triangles())
            }
            (expected, _) => {
                let number = expected.expect_err("what has no faces is refused");
                tally.count(Kind::FromPentachora, number);
                same_answer(answer, -i64::from(number))?;
                n_triangles.unchanged()?;
                edges.unchanged()?;
                triangles.unchanged()
            }
        }
    }

    fn simpler(&self) -> Vec<FromPentachora> {
        let (n, list, room) = (self.n_vertices, &self.list, self.room);
        let with = |n_vertices: u64, list: Vec<u64>| FromPentachora { n_vertices, list, room };
        let mut simpler = vec![compact(n, &list[..list.len() / 10 * 5], room)];
        for at in (0..list.len()).step_by(5) {
            let end = list.len().min(at + 5);
            let fewer = [&list[..at], &list[end..]].concat();
            simpler.push(compact(n, &fewer, room));
            simpler.push(with(n, fewer));
        }
        if let Some((_, shorter)) = list.split_last() {
            simpler.push(with(n, shorter.to_vec()));
        }
        for fewer in [1, n / 2, n.saturating_sub(1)] {
            simpler.push(with(fewer, list.clone()));
        }
        simpler.push(compact(n, list, room));
        // one vertex takes the place of another
        for gone in 0..n.min(64) {
            for kept in 0..gone {
                let merged: Vec<u64> = list.iter().map(|&vertex| if vertex == gone { kept } else { vertex }).collect();
                simpler.push(compact(n, &merged, room));
            }
        }
        for at in 0..list.len() {
            for value in [0, list[at] / 2, list[at].saturating_sub(1)] {
                let mut other = list.clone();
                other[at] = value;
                simpler.push(with(n, other));
            }
        }
        simpler.extend(Room::ALL.map(|room| FromPentachora { room, ..self.clone() }));
        simpler
    }

    fn size(&self) -> Vec<u128> {
        let sum = self.list.iter().map(|&vertex| u128::from(vertex)).sum();
        vec![self.list.len() as u128, u128::from(self.n_vertices), sum, self.room as u128]
    }

    fn show(&self) -> String {
        format!("from_pentachorons: {} vertices, pentachora {:?}, room {:?}", self.n_vertices, self.list, self.room)
    }
}

/// Vertices that no five has go, and the later ones move up.
fn compact(n_vertices: u64, list: &[u64], room: Room) -> FromPentachora {
    let gone: Vec<u64> = (0..n_vertices.min(64)).filter(|vertex| !list.contains(vertex)).collect();
    let moved = |vertex: u64| vertex - gone.iter().filter(|&&before| before < vertex).count() as u64;
    FromPentachora { n_vertices: n_vertices - gone.len() as u64, list: list.iter().map(|&vertex| moved(vertex)).collect(), room }
}

pub fn same_answer(answer: i64, expected: i64) -> Result<(), String> {
    if answer == expected { Ok(()) } else { Err(format!("the answer is {answer}, expected {expected}")) }
}
