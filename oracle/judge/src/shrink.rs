//! Smaller inputs to try in the place of one, where several calls take the same: an L, and a configuration or weights on a sheet.

use crate::configurations::Hanging;
use crate::floats;
use crate::reference::{self, HEADER, Sheet};
use crate::sheets::simpler_sheets;
use crate::weights::Weights;

/// The same sheet with smaller L.
pub fn simpler_lambdas(bytes: &[u8]) -> Vec<Vec<u8>> {
    if bytes.len() < HEADER {
        return vec![];
    }
    let lambda = u16::from_le_bytes([bytes[9], bytes[10]]);
    let with = |less: u16| {
        let mut sheet = bytes.to_vec();
        sheet[9..11].copy_from_slice(&less.to_le_bytes());
        sheet
    };
    [0, 1, lambda / 2, lambda.saturating_sub(1)].map(with).to_vec()
}

/// A sheet and a value for each of its edges.
type Both = (Vec<u8>, Vec<i32>);

/// No value but zero; edges go with their values; then less on a loop, simpler sheets, fewer values and smaller ones.
pub fn simpler_configurations(bytes: &[u8], configuration: &[i32]) -> Vec<Both> {
    let mut simpler = vec![(bytes.to_vec(), vec![0; configuration.len()])];
    simpler.extend(fewer_edges(bytes, configuration));
    simpler.extend(less_on_loops(bytes, configuration).into_iter().map(|values| (bytes.to_vec(), values)));
    simpler.extend(simpler_sheets(bytes).into_iter().map(|sheet| (sheet, configuration.to_vec())));
    if let Some((_, shorter)) = configuration.split_last() {
        simpler.push((bytes.to_vec(), shorter.to_vec()));
    }
    for (at, &value) in configuration.iter().enumerate() {
        for other in [0, 1, -1, value / 2, value - value.signum()] {
            let mut smaller = configuration.to_vec();
            smaller[at] = other;
            simpler.push((bytes.to_vec(), smaller));
        }
    }
    simpler
}

/// Edges go with their values.
fn fewer_edges(bytes: &[u8], configuration: &[i32]) -> Vec<Both> {
    let values = |left: &Left| left.edges.iter().filter_map(|&number| configuration.get(number).copied()).collect();
    left_of(bytes).into_iter().map(|left| (reference::encode(&left.sheet), values(&left))).collect()
}

/// Lawful values stay lawful: all are halved or signs alone, or on the loop of a free edge there is less.
fn less_on_loops(bytes: &[u8], configuration: &[i32]) -> Vec<Vec<i32>> {
    let mut less: Vec<Vec<i32>> = vec![];
    less.push(configuration.iter().map(|value| value.signum()).collect());
    less.push(configuration.iter().map(|value| value / 2).collect());
    let Some(complex) = reference::read_sheet(bytes).ok().map(|sheet| sheet.complex) else {
        return less;
    };
    if complex.edges.len() != configuration.len() {
        return less;
    }
    let hanging = Hanging::of(&complex);
    for &free in &hanging.free {
        let value = i64::from(configuration[free]);
        for much in [value, value - value / 2, value.signum()] {
            let mut values: Vec<i64> = configuration.iter().copied().map(i64::from).collect();
            hanging.round(free, -much, &mut values);
            less.extend(values.into_iter().map(|value| i32::try_from(value).ok()).collect::<Option<Vec<i32>>>());
        }
    }
    less
}

pub fn configuration_size(configuration: &[i32]) -> Vec<u128> {
    let size = |&value: &i32| 2 * u128::from(value.unsigned_abs()) + u128::from(value < 0);
    vec![configuration.len() as u128, configuration.iter().map(size).sum()]
}

/// No weights; triangles go with theirs; then simpler sheets, fewer weights and simpler ones.
pub fn simpler_weights(bytes: &[u8], weights: &Weights) -> Vec<(Vec<u8>, Weights)> {
    let with = |list: Vec<f64>| Weights { given: weights.given, list };
    let mut simpler = vec![(bytes.to_vec(), Weights::absent())];
    for left in left_of(bytes) {
        let list = left.triangles.iter().filter_map(|&number| weights.list.get(number).copied()).collect();
        simpler.push((reference::encode(&left.sheet), with(list)));
    }
    simpler.extend(simpler_sheets(bytes).into_iter().map(|sheet| (sheet, weights.clone())));
    simpler.push((bytes.to_vec(), with(vec![1.0; weights.list.len()])));
    if let Some((_, shorter)) = weights.list.split_last() {
        simpler.push((bytes.to_vec(), with(shorter.to_vec())));
    }
    for (at, &weight) in weights.list.iter().enumerate() {
        for other in floats::simpler(weight) {
            let mut list = weights.list.clone();
            list[at] = other;
            simpler.push((bytes.to_vec(), with(list)));
        }
    }
    simpler
}

/// What is left of a sheet, with the numbers that its edges and triangles had.
struct Left {
    sheet: Sheet,
    edges: Vec<usize>,
    triangles: Vec<usize>,
}

impl Left {
    fn new(sheet: &Sheet, edge: impl Fn(&[u8; 2]) -> bool, triangle: impl Fn(&[u8; 3]) -> bool) -> Left {
        let complex = &sheet.complex;
        let edges: Vec<usize> = (0..complex.edges.len()).filter(|&at| edge(&complex.edges[at])).collect();
        let triangles: Vec<usize> = (0..complex.triangles.len()).filter(|&at| triangle(&complex.triangles[at])).collect();
        let mut sheet = sheet.clone();
        sheet.complex.edges = edges.iter().map(|&at| complex.edges[at]).collect();
        sheet.complex.triangles = triangles.iter().map(|&at| complex.triangles[at]).collect();
        Left { sheet, edges, triangles }
    }

    /// Once nothing has the vertex, it goes and the later ones move up.
    fn without(mut self, gone: u8) -> Left {
        let moved = |vertex: u8| if vertex > gone { vertex - 1 } else { vertex };
        let complex = &mut self.sheet.complex;
        complex.vertices -= 1;
        complex.edges.iter_mut().for_each(|edge| *edge = edge.map(moved));
        complex.triangles.iter_mut().for_each(|triangle| *triangle = triangle.map(moved));
        self
    }
}

/// A vertex goes with its edges, or one edge goes, and triangles with them; or one triangle goes.
fn left_of(bytes: &[u8]) -> Vec<Left> {
    let mut left = vec![];
    let Ok(sheet) = reference::read_sheet(bytes) else {
        return left;
    };
    for gone in 0..sheet.complex.vertices as u8 {
        left.push(Left::new(&sheet, |edge| !edge.contains(&gone), |triangle| !triangle.contains(&gone)).without(gone));
    }
    for gone in &sheet.complex.edges {
        left.push(Left::new(&sheet, |edge| edge != gone, |triangle| !gone.iter().all(|end| triangle.contains(end))));
    }
    for gone in &sheet.complex.triangles {
        left.push(Left::new(&sheet, |_| true, |triangle| triangle != gone));
    }
    left
}
