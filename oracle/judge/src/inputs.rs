//! Random inputs: right ones of every size, and damaged ones.

use crate::lent::Room;
use crate::pentachora::FromPentachora;
use crate::random::Random;
use crate::reference::{Complex, HEADER, MOST_EDGES, MOST_TRIANGLES, Sheet, encode};
use crate::sheets::MakeSheet;
use std::collections::BTreeSet;

// ---- pentachora

/// Numbers that a reader of narrower words would take for small ones.
pub fn strange(random: &mut Random, near: u64) -> u64 {
    let small = random.below(near + 1);
    random.pick(&[near, near + 1, 64, 65, 255, 256 + small, 65_536 + small, (1 << 32) + small, 1 << 63, u64::MAX, u64::MAX - small])
}

/// A list without a fault in its fives; the complex may still have too many edges or several parts.
pub fn right_pentachora(random: &mut Random) -> (u64, Vec<u64>) {
    let (vertices, mut fives) = match random.below(6) {
        0 => {
            let vertices = random.between(1, 64);
            (vertices, scattered(random, vertices, 6))
        }
        1 => {
            let vertices = random.between(5, 9);
            (vertices, scattered(random, vertices, 30))
        }
        2 => {
            let vertices = random.between(10, 13);
            (vertices, scattered(random, vertices, 60))
        }
        3 if random.one_in(4) => {
            let vertices = random.between(14, 64);
            (vertices, scattered(random, vertices, 200))
        }
        _ => grown(random),
    };
    if !fives.is_empty() && random.one_in(3) {
        for _ in 0..random.between(1, 4) {
            fives.push(random.pick(&fives));
        }
        random.shuffle(&mut fives);
    }
    for five in &mut fives {
        if random.one_in(4) {
            five.sort_unstable();
        } else {
            random.shuffle(five);
        }
    }
    (vertices, fives.concat())
}

/// Fives anywhere.
fn scattered(random: &mut Random, vertices: u64, most: u64) -> Vec<[u64; 5]> {
    let how_many = if vertices < 5 { 0 } else { random.below(most + 1) };
    (0..how_many).map(|_| five_of(random, vertices)).collect()
}

fn five_of(random: &mut Random, vertices: u64) -> [u64; 5] {
    random.some(5, vertices).try_into().expect("five of five or more")
}

/// Each new five shares vertices with the earlier ones, so that one part arises; the vertices are named at random in the end.
fn grown(random: &mut Random) -> (u64, Vec<[u64; 5]>) {
    let goal = random.between(1, 20);
    let over = random.one_in(6);
    let mut edges = BTreeSet::new();
    let mut fives: Vec<[u64; 5]> = vec![];
    let mut used = 0;
    for _ in 0..goal {
        let mut five: Vec<u64> = vec![];
        if let Some(&last) = fives.last() {
            let shared = random.between(1, 5);
            five = if random.one_in(2) {
                let mut earlier = if random.one_in(2) { last } else { random.pick(&fives) };
                random.shuffle(&mut earlier);
                earlier[..shared as usize].to_vec()
            } else {
                random.some(shared, used)
            };
        }
        let mut next = used;
        while five.len() < 5 {
            five.push(next);
            next += 1;
        }
        let new: BTreeSet<(u64, u64)> =
            five.iter().flat_map(|&a| five.iter().map(move |&b| (a, b))).filter(|&(a, b)| a < b).collect();
        if next > 64 || (!over && edges.union(&new).count() > MOST_EDGES) {
            continue;
        }
        edges.extend(new);
        used = next;
        fives.push(five.try_into().expect("filled up to five"));
    }
    let spare = if random.one_in(8) { random.between(1, 3) } else { 0 };
    let vertices = (used + spare).min(64);
    let names = random.some(vertices, vertices);
    (vertices, fives.iter().map(|five| five.map(|vertex| names[vertex as usize])).collect())
}

pub fn any_pentachora(random: &mut Random) -> FromPentachora {
    let (mut n_vertices, mut list) = right_pentachora(random);
    if random.one_in(4) {
        for _ in 0..random.between(1, 2) {
            damage_pentachora(random, &mut n_vertices, &mut list);
        }
    }
    let room = if random.one_in(2) { Room::Ample } else { random.pick(&Room::ALL) };
    FromPentachora { n_vertices, list, room }
}

fn damage_pentachora(random: &mut Random, n_vertices: &mut u64, list: &mut Vec<u64>) {
    match random.below(6) {
        0 => *n_vertices = random.pick(&[0, 65, 66, 256, 257, (1 << 32) + 5, 1 << 63, u64::MAX]),
        1 => *n_vertices = n_vertices.saturating_add(1),
        2 => *n_vertices = n_vertices.saturating_sub(1),
        3 => {
            for _ in 0..random.between(1, 4) {
                list.push(random.below(6));
            }
        }
        4 if !list.is_empty() => {
            let at = random.place(list);
            list[at] = strange(random, (*n_vertices).min(64));
        }
        _ if list.len() >= 5 => {
            let five = 5 * random.below(list.len() as u64 / 5) as usize;
            let (from, to) = (random.below(5) as usize, random.below(5) as usize);
            list[five + to] = list[five + from];
        }
        _ => list.push(0),
    }
}

// ---- complexes

/// An accepted complex: one part, edges in any order, triangles from listed edges in any order.
pub fn right_complex(random: &mut Random) -> Complex {
    let vertices = match random.below(5) {
        0 => random.between(1, 6),
        1 => random.between(4, 12),
        2 => random.between(40, 64),
        3 => random.between(60, 64),
        _ => random.between(1, 64),
    };
    grown_complex(random, vertices, |random, most| if random.one_in(3) { most } else { random.between(vertices - 1, most) })
}

/// An accepted complex with so many vertices and, where that many fit, so many free edges.
pub fn complex_with(random: &mut Random, vertices: u64, free: u64) -> Complex {
    grown_complex(random, vertices, |_, most| (vertices - 1 + free).min(most))
}

/// A random tree on so many vertices and edges on top of it, up to a number that is chosen once the tree stands.
fn grown_complex(random: &mut Random, vertices: u64, goal: impl Fn(&mut Random, u64) -> u64) -> Complex {
    let names = random.some(vertices, vertices);
    let mut edges: Vec<[u64; 2]> = vec![];
    let shape = random.below(4);
    for vertex in 1..vertices {
        let before = match shape {
            0 => vertex - 1,
            1 => 0,
            2 => vertex.saturating_sub(random.between(1, 3)),
            _ => random.below(vertex),
        };
        edges.push([before, vertex]);
    }
    let most = (vertices * (vertices - 1) / 2).min(MOST_EDGES as u64);
    let goal = goal(random, most);
    let mut there: BTreeSet<[u64; 2]> = edges.iter().copied().collect();
    let mut tries = 0;
    while (edges.len() as u64) < goal && tries < 4_000 {
        tries += 1;
        // every second time an edge that closes a triangle
        let ends = if random.one_in(2) {
            let (one, two) = (random.pick(&edges), random.pick(&edges));
            let common = one.iter().find(|end| two.contains(end));
            match common {
                Some(common) => [one[0] + one[1] - common, two[0] + two[1] - common],
                None => continue,
            }
        } else {
            [random.below(vertices), random.below(vertices)]
        };
        let edge = [ends[0].min(ends[1]), ends[0].max(ends[1])];
        if edge[0] < edge[1] && there.insert(edge) {
            edges.push(edge);
        }
    }
    let mut named: Vec<[u8; 2]> = edges
        .iter()
        .map(|edge| {
            let ends = edge.map(|vertex| names[vertex as usize] as u8);
            [ends[0].min(ends[1]), ends[0].max(ends[1])]
        })
        .collect();
    if random.one_in(4) {
        named.sort_unstable();
    } else {
        random.shuffle(&mut named);
    }
    let mut triangles = closed(&named);
    if !random.one_in(3) {
        random.shuffle(&mut triangles);
    }
    if random.one_in(2) {
        let kept = random.below(triangles.len() as u64 + 1);
        triangles.truncate(kept as usize);
    }
    Complex { vertices, edges: named, triangles }
}

/// Every triangle whose three edges are listed.
pub fn closed(edges: &[[u8; 2]]) -> Vec<[u8; 3]> {
    let there: BTreeSet<[u8; 2]> = edges.iter().copied().collect();
    let mut triangles = vec![];
    for &[a, b] in &there {
        for &[from, c] in &there {
            if from == b && there.contains(&[a, c]) {
                triangles.push([a, b, c]);
            }
        }
    }
    triangles
}

pub fn right_sheet(random: &mut Random) -> Sheet {
    let lambda = if random.one_in(3) { random.pick(&[0, 1, 255, 256, 999, 1000]) } else { random.between(0, 1000) };
    Sheet { complex: right_complex(random), lambda }
}

/// Any call of `make_sheet`, damaged every second time, often twice.
pub fn any_make(random: &mut Random) -> MakeSheet {
    let spare = if random.one_in(2) { random.between(1, 40) as i64 } else { 0 };
    let mut make = MakeSheet::of(&right_sheet(random), spare);
    if random.one_in(2) {
        for _ in 0..random.between(1, 3) {
            damage_make(random, &mut make);
        }
    }
    make
}

fn damage_make(random: &mut Random, make: &mut MakeSheet) {
    match random.below(12) {
        0 => {
            let small = make.n_vertices.min(64);
            make.n_vertices = random.pick(&[0, 65, 256 + small, 65_536 + small, (1 << 32) + small, u64::MAX]);
        }
        1 => make.n_vertices = make.n_vertices.saturating_add(1),
        2 => make.n_vertices = make.n_vertices.saturating_sub(1),
        3 => make.lambda = random.pick(&[1001, 1024, 65_535, 65_536, 65_537, 1 << 32, (1 << 32) + 1, u64::MAX]),
        4 => make.edges.push(random.below(64) as u8),
        5 => make.triangles.extend((0..random.between(1, 2)).map(|_| random.below(64) as u8).collect::<Vec<u8>>()),
        6 => make.spare = random.pick(&[-1, -1, -2, -11, -12, -10_000]),
        7 => damage_simplex(random, &mut make.edges, 2, make.n_vertices),
        8 | 9 => damage_simplex(random, &mut make.triangles, 3, make.n_vertices),
        10 => {
            let goal = random.pick(&[126, 127, 128, 129, 130, 512]);
            while make.edges.len() < goal {
                make.edges.push(random.below(64) as u8);
            }
        }
        _ => {
            let goal = random.pick(&[766, 767, 768, 769, 770, 771, 2000]);
            while make.triangles.len() < goal {
                make.triangles.push(random.below(64) as u8);
            }
        }
    }
}

/// One simplex of a flat list is spoiled, repeated, dropped, or another is put behind it.
fn damage_simplex(random: &mut Random, flat: &mut Vec<u8>, per: usize, vertices: u64) {
    let count = flat.len() / per;
    if count == 0 {
        return;
    }
    let at = per * random.below(count as u64) as usize;
    match random.below(6) {
        0 => flat.swap(at, at + 1),
        1 => flat[at + per - 1] = random.pick(&[vertices as u8, vertices.wrapping_add(1) as u8, 64, 255]),
        2 => flat[at] = flat[at + 1],
        3 => flat.extend_from_within(at..at + per),
        4 => drop(flat.drain(at..at + per)),
        _ => flat[at + random.below(per as u64) as usize] = random.below(vertices.clamp(1, 64)) as u8,
    }
}

/// Any bytes that look like a sheet, damaged more often than not.
pub fn any_sheet_bytes(random: &mut Random) -> Vec<u8> {
    if random.one_in(50) {
        let len = random.below(40);
        return (0..len).map(|_| random.next() as u8).collect();
    }
    if random.one_in(3) {
        // what a careless writer would make of a damaged complex
        let make = any_make(random);
        let complex = Complex {
            vertices: make.n_vertices,
            edges: make.edges.chunks_exact(2).map(|two| [two[0], two[1]]).collect(),
            triangles: make.triangles.chunks_exact(3).map(|three| [three[0], three[1], three[2]]).collect(),
        };
        return encode(&Sheet { complex, lambda: make.lambda });
    }
    let mut bytes = encode(&right_sheet(random));
    for _ in 0..random.below(4) {
        damage_bytes(random, &mut bytes);
    }
    bytes
}

fn damage_bytes(random: &mut Random, bytes: &mut Vec<u8>) {
    match random.below(8) {
        0 => {
            let kept = random.below(bytes.len() as u64 + 1);
            bytes.truncate(kept as usize);
        }
        1 => bytes.extend((0..random.between(1, 6)).map(|_| random.below(8) as u8).collect::<Vec<u8>>()),
        2 if bytes.len() >= HEADER => bytes[random.below(HEADER as u64) as usize] = random.next() as u8,
        3 if bytes.len() >= HEADER => {
            let at = random.below(HEADER as u64) as usize;
            bytes[at] = if random.one_in(2) { bytes[at].wrapping_add(1) } else { bytes[at].wrapping_sub(1) };
        }
        4 if bytes.len() > HEADER + 1 => {
            let at = random.between(HEADER as u64, bytes.len() as u64 - 2) as usize;
            bytes.swap(at, at + 1);
        }
        5 if bytes.len() > HEADER => {
            let at = random.between(HEADER as u64, bytes.len() as u64 - 1) as usize;
            bytes[at] = random.below(66) as u8;
        }
        6 if bytes.len() >= HEADER => {
            let number: u64 = random.pick(&[1000, 1001, 1024, 65_535]);
            bytes[9] = (number % 256) as u8;
            bytes[10] = (number / 256) as u8;
        }
        _ if !bytes.is_empty() => {
            let at = random.place(bytes);
            bytes[at] ^= 1 << random.below(8);
        }
        _ => bytes.push(0),
    }
}

/// As many triangles as the edges can bear, or so many more that the table still takes their number.
pub fn fullest(triangles: usize) -> Complex {
    assert!(triangles <= MOST_TRIANGLES);
    let mut edges: Vec<[u8; 2]> = vec![];
    for b in 1..12 {
        for a in 0..b {
            if edges.len() < MOST_EDGES {
                edges.push([a, b]);
            }
        }
    }
    let all = closed(&edges);
    let list = all.iter().cycle().take(triangles).copied().collect();
    Complex { vertices: 12, edges, triangles: list }
}
