//! What the scope paper says, in simple sets and loops. It judges the refusals and the sheet's bytes, where the Rust has no say.

use std::collections::BTreeSet;

pub const MOST_VERTICES: u64 = 64;
pub const MOST_EDGES: usize = 63;
pub const MOST_TRIANGLES: usize = 256;
pub const MOST_LAMBDA: u64 = 1000;
pub const MOST_CANDIDATES: u64 = 1_048_576;
pub const HEADER: usize = 11;

/// A complex as lists; not yet judged.
#[derive(Clone, PartialEq, Debug)]
pub struct Complex {
    pub vertices: u64,
    pub edges: Vec<[u8; 2]>,
    pub triangles: Vec<[u8; 3]>,
}

/// What a sheet says.
#[derive(Clone, PartialEq, Debug)]
pub struct Sheet {
    pub complex: Complex,
    pub lambda: u64,
}

impl Complex {
    pub fn flat_edges(&self) -> Vec<u8> {
        self.edges.concat()
    }

    pub fn flat_triangles(&self) -> Vec<u8> {
        self.triangles.concat()
    }

    /// How many edges are free, where there is one part.
    pub fn free_edges(&self) -> usize {
        self.edges.len() + 1 - self.vertices as usize
    }

    /// 4: a count outside its range.
    fn counts(&self) -> Result<(), u8> {
        counts(self.vertices, self.edges.len(), self.triangles.len())
    }

    /// 7, 8 and 9, of counts that are right.
    fn lists(&self) -> Result<(), u8> {
        let below = |vertex: u8| u64::from(vertex) < self.vertices;
        let mut edges = BTreeSet::new();
        for &[a, b] in &self.edges {
            let right = a < b && below(b);
            if !right || !edges.insert([a, b]) {
                return Err(7);
            }
        }
        let mut triangles = BTreeSet::new();
        for &[a, b, c] in &self.triangles {
            let right = a < b && b < c && below(c);
            let sides = [[a, b], [a, c], [b, c]];
            if !right || !triangles.insert([a, b, c]) || sides.iter().any(|side| !edges.contains(side)) {
                return Err(8);
            }
        }
        if self.parts() != 1 {
            return Err(9);
        }
        Ok(())
    }

    /// How many parts the edges leave: every vertex starts as a part of its own, and each edge makes one part of two.
    fn parts(&self) -> usize {
        let mut part: Vec<usize> = (0..self.vertices as usize).collect();
        for &[a, b] in &self.edges {
            let (kept, gone) = (part[usize::from(a)], part[usize::from(b)]);
            for name in &mut part {
                if *name == gone {
                    *name = kept;
                }
            }
        }
        part.into_iter().collect::<BTreeSet<_>>().len()
    }
}

fn counts(vertices: u64, edges: usize, triangles: usize) -> Result<(), u8> {
    let right = (1..=MOST_VERTICES).contains(&vertices) && edges <= MOST_EDGES && triangles <= MOST_TRIANGLES;
    if right { Ok(()) } else { Err(4) }
}

fn pairs(flat: &[u8]) -> Vec<[u8; 2]> {
    flat.chunks_exact(2).map(|two| [two[0], two[1]]).collect()
}

fn triples(flat: &[u8]) -> Vec<[u8; 3]> {
    flat.chunks_exact(3).map(|three| [three[0], three[1], three[2]]).collect()
}

/// The sheet, or the first of 1 to 9 that holds.
pub fn read_sheet(bytes: &[u8]) -> Result<Sheet, u8> {
    if bytes.len() < HEADER {
        return Err(1);
    }
    if &bytes[0..3] != b"GLS" {
        return Err(2);
    }
    let word = |at: usize| u64::from(bytes[at]) + 256 * u64::from(bytes[at + 1]);
    if word(3) != 1 {
        return Err(3);
    }
    let (vertices, n_edges, n_triangles, lambda) = (u64::from(bytes[5]), usize::from(bytes[6]), word(7) as usize, word(9));
    counts(vertices, n_edges, n_triangles)?;
    if lambda > MOST_LAMBDA {
        return Err(5);
    }
    if bytes.len() != HEADER + 2 * n_edges + 3 * n_triangles {
        return Err(6);
    }
    let (edges, triangles) = bytes[HEADER..].split_at(2 * n_edges);
    let complex = Complex { vertices, edges: pairs(edges), triangles: triples(triangles) };
    complex.lists()?;
    Ok(Sheet { complex, lambda })
}

/// The sheet's bytes; the counts and L are taken to fit their fields.
pub fn encode(sheet: &Sheet) -> Vec<u8> {
    let complex = &sheet.complex;
    let low_high = |number: u64| [(number % 256) as u8, (number / 256 % 256) as u8];
    let mut bytes = b"GLS".to_vec();
    bytes.extend(low_high(1));
    bytes.push(complex.vertices as u8);
    bytes.push(complex.edges.len() as u8);
    bytes.extend(low_high(complex.triangles.len() as u64));
    bytes.extend(low_high(sheet.lambda));
    bytes.extend(complex.flat_edges());
    bytes.extend(complex.flat_triangles());
    bytes
}

/// The bytes of the sheet made of flat lists, or the first of 4 to 9 and 15 that holds.
pub fn make_sheet(vertices: u64, edges: &[u8], triangles: &[u8], lambda: u64, room: usize) -> Result<Vec<u8>, u8> {
    let complex = Complex { vertices, edges: pairs(edges), triangles: triples(triangles) };
    complex.counts()?;
    if lambda > MOST_LAMBDA {
        return Err(5);
    }
    if !edges.len().is_multiple_of(2) || !triangles.len().is_multiple_of(3) {
        return Err(6);
    }
    complex.lists()?;
    let bytes = encode(&Sheet { complex, lambda });
    if room < bytes.len() { Err(15) } else { Ok(bytes) }
}

/// The first two judgements on pentachora: 4 for V, then 11.
pub fn pentachora(vertices: u64, list: &[u64]) -> Result<(), u8> {
    counts(vertices, 0, 0)?;
    let five_apart = |five: &[u64]| five.iter().collect::<BTreeSet<_>>().len() == 5;
    if !list.len().is_multiple_of(5) || list.iter().any(|&vertex| vertex >= vertices) || !list.chunks(5).all(five_apart) {
        return Err(11);
    }
    Ok(())
}

/// The complex of pentachora that were judged right, of any size: each new face gets the next number.
pub fn faces(vertices: u64, list: &[u64]) -> Complex {
    let mut complex = Complex { vertices, edges: vec![], triangles: vec![] };
    let (mut edges, mut triangles) = (BTreeSet::new(), BTreeSet::new());
    for five in list.chunks(5) {
        // a set gives its members in rising order
        let rising: Vec<u8> = five.iter().map(|&vertex| vertex as u8).collect::<BTreeSet<_>>().into_iter().collect();
        for (at, &a) in rising.iter().enumerate() {
            for (next, &b) in rising.iter().enumerate().skip(at + 1) {
                if edges.insert([a, b]) {
                    complex.edges.push([a, b]);
                }
                for &c in &rising[next + 1..] {
                    if triangles.insert([a, b, c]) {
                        complex.triangles.push([a, b, c]);
                    }
                }
            }
        }
    }
    complex
}

/// The later judgements on pentachora: 4 for E and T, 9, 15.
pub fn after_faces(complex: &Complex, edge_room: usize, triangle_room: usize) -> Result<(), u8> {
    complex.counts()?;
    if complex.parts() != 1 {
        return Err(9);
    }
    if edge_room < 2 * complex.edges.len() || triangle_room < 3 * complex.triangles.len() {
        return Err(15);
    }
    Ok(())
}

// ---- Gauss's law, of a complex in one part

/// The numbers of the tree's edges as they are found from vertex 0, and those of all other edges, rising.
pub fn tree(complex: &Complex) -> (Vec<u32>, Vec<u32>) {
    let (mut found, mut tree) = (vec![0], vec![]);
    let mut at = 0;
    while at < found.len() {
        for (number, &[a, b]) in complex.edges.iter().enumerate() {
            let far_end = match found[at] {
                here if here == a => b,
                here if here == b => a,
                _ => continue,
            };
            if !found.contains(&far_end) {
                found.push(far_end);
                tree.push(number as u32);
            }
        }
        at += 1;
    }
    let free = (0..complex.edges.len() as u32).filter(|number| !tree.contains(number)).collect();
    (tree, free)
}

/// Whether at every vertex as much ends as starts.
pub fn lawful(complex: &Complex, configuration: &[i32]) -> bool {
    let mut sums = vec![0_i128; complex.vertices as usize];
    for (&[a, b], &value) in complex.edges.iter().zip(configuration) {
        sums[usize::from(b)] += i128::from(value);
        sums[usize::from(a)] -= i128::from(value);
    }
    sums.iter().all(|&sum| sum == 0)
}

/// (2L+1)^F, unless it is over the limit.
pub fn candidates(free: usize, lambda: u64) -> Option<u64> {
    let mut product = 1;
    for _ in 0..free {
        product *= 2 * lambda + 1;
        if product > MOST_CANDIDATES {
            return None;
        }
    }
    Some(product)
}

/// The sheet that a basis is asked of and its candidates, or the first of 1 to 10 that holds.
pub fn read_for_basis(bytes: &[u8]) -> Result<(Sheet, u64), u8> {
    let sheet = read_sheet(bytes)?;
    let candidates = candidates(sheet.complex.free_edges(), sheet.lambda).ok_or(10)?;
    Ok((sheet, candidates))
}

/// How many candidates a lister has to try; none where the sheet is refused.
pub fn to_try(bytes: &[u8]) -> u64 {
    read_for_basis(bytes).map_or(0, |(_, candidates)| candidates)
}

/// The largest L with so many free edges and up to so many candidates.
pub fn largest_lambda(free: usize, most: u64) -> u64 {
    let few = |lambda: &u64| candidates(free, *lambda).is_some_and(|count| count <= most);
    (0..=MOST_LAMBDA).rev().find(few).expect("L 0 has one candidate")
}

/// The listing by its definition: of all assignments within ±L the lawful ones, ordered by their values on the free edges, the
/// highest-numbered one first. For few edges only.
pub fn states(complex: &Complex, lambda: u64) -> Vec<Vec<i32>> {
    let (n_edges, values) = (complex.edges.len() as u32, 2 * lambda + 1);
    let digit = |code: u64, edge: u32| (code / values.pow(edge) % values) as i32 - lambda as i32;
    let assignments = (0..values.pow(n_edges)).map(|code| (0..n_edges).map(|edge| digit(code, edge)).collect::<Vec<i32>>());
    let mut states: Vec<Vec<i32>> = assignments.filter(|state| lawful(complex, state)).collect();
    let free = tree(complex).1;
    states.sort_by_key(|state| free.iter().rev().map(|&edge| state[edge as usize]).collect::<Vec<i32>>());
    states
}

// ---- places and shifts, of a sheet that is read for its basis and of its states

/// Whether a configuration is listed: every value within ±L, and lawful.
pub fn listed(sheet: &Sheet, configuration: &[i32]) -> bool {
    configuration.iter().all(|&value| in_band(sheet, value.into())) && lawful(&sheet.complex, configuration)
}

fn in_band(sheet: &Sheet, value: i64) -> bool {
    value.unsigned_abs() <= sheet.lambda
}

/// How many listed states come before a listed one.
pub fn place(states: &[Vec<i32>], state: &[i32]) -> usize {
    states.iter().take_while(|other| *other != state).count()
}

/// 15 of a work list.
fn work_room(sheet: &Sheet, states: &[Vec<i32>], room: usize) -> Result<(), u8> {
    if room < states.len() * sheet.complex.edges.len() { Err(15) } else { Ok(()) }
}

/// The place that `config_to_index` tells, or the first of 12, 15 and 17 that holds.
pub fn config_to_index(sheet: &Sheet, states: &[Vec<i32>], configuration: &[i32], room: usize) -> Result<usize, u8> {
    if configuration.len() != sheet.complex.edges.len() {
        return Err(12);
    }
    work_room(sheet, states, room)?;
    if listed(sheet, configuration) { Ok(place(states, configuration)) } else { Err(17) }
}

/// What `apply_shift` reaches, or the first of 12, 13, 15, 16 and 17 that holds; the rooms are those of the work list and the result.
pub fn apply_shift(
    sheet: &Sheet,
    states: &[Vec<i32>],
    configuration: &[i32],
    edge: u64,
    delta: i32,
    rooms: (usize, usize),
) -> Result<(Vec<i32>, usize), u8> {
    let n_edges = sheet.complex.edges.len();
    if configuration.len() != n_edges {
        return Err(12);
    }
    if edge >= n_edges as u64 {
        return Err(13);
    }
    work_room(sheet, states, rooms.0)?;
    if rooms.1 < n_edges {
        return Err(15);
    }
    let sum = i64::from(configuration[edge as usize]) + i64::from(delta);
    if !in_band(sheet, sum) {
        return Err(16);
    }
    let mut shifted = configuration.to_vec();
    shifted[edge as usize] = sum as i32;
    if !listed(sheet, &shifted) {
        return Err(17);
    }
    let place = place(states, &shifted);
    Ok((shifted, place))
}

/// The numbers of a triangle's edges (a,b), (a,c), (b,c).
pub fn sides(complex: &Complex, triangle: usize) -> [usize; 3] {
    let [a, b, c] = complex.triangles[triangle];
    let number = |side: [u8; 2]| complex.edges.iter().position(|&edge| edge == side).expect("8 was judged");
    [[a, b], [a, c], [b, c]].map(number)
}

/// The place that `apply_triangle_shift` tells, or the first of 13, 15 and 16 that holds.
pub fn apply_triangle_shift(sheet: &Sheet, states: &[Vec<i32>], triangle: u64, state: u64, room: usize) -> Result<usize, u8> {
    let complex = &sheet.complex;
    if triangle >= complex.triangles.len() as u64 || state >= states.len() as u64 {
        return Err(13);
    }
    work_room(sheet, states, room)?;
    let mut shifted = states[state as usize].clone();
    for (edge, sign) in sides(complex, triangle as usize).into_iter().zip([1, -1, 1]) {
        shifted[edge] += sign;
    }
    if !shifted.iter().all(|&value| in_band(sheet, value.into())) {
        return Err(16);
    }
    Ok(place(states, &shifted))
}

// ---- sets of edges that are even at each vertex, as masks

/// Whether the set has an even number of edges at each vertex.
pub fn even(complex: &Complex, mask: u64) -> bool {
    let mut odd = vec![false; complex.vertices as usize];
    for (edge, &[a, b]) in complex.edges.iter().enumerate() {
        if mask >> edge & 1 == 1 {
            odd[usize::from(a)] ^= true;
            odd[usize::from(b)] ^= true;
        }
    }
    !odd.contains(&true)
}

/// All of them by their definition, ascending. For few edges only.
pub fn masks(complex: &Complex) -> Vec<u64> {
    (0..1 << complex.edges.len()).filter(|&mask| even(complex, mask)).collect()
}

/// The sheet that masks are asked of and how many there are, or the first of 1 to 10 that holds.
pub fn read_for_masks(bytes: &[u8]) -> Result<(Sheet, u64), u8> {
    let sheet = read_sheet(bytes)?;
    let count = 1 << sheet.complex.free_edges();
    if count > MOST_CANDIDATES { Err(10) } else { Ok((sheet, count)) }
}

/// How many masks a lister has to write; none where the sheet is refused.
pub fn masks_to_write(bytes: &[u8]) -> u64 {
    read_for_masks(bytes).map_or(0, |(_, count)| count)
}
