//! Every refusal: which calls tell it, and that its sentence is the header's.

mod common;
use common::*;
use zibrotka::{Error, Refusal, RowLists, Sheet, Unplaced, calls};

/// The numbers and sentences of the header.
fn sentences() -> Vec<(u8, String)> {
    let header = header();
    let listed = header.split_once("enum zibrotka_refusal {").unwrap().1.split_once("};").unwrap().0;
    let mut lines = listed.lines().map(str::trim).filter(|line| !line.is_empty());
    let mut all = Vec::new();
    while let (Some(sentence), Some(name)) = (lines.next(), lines.next()) {
        let sentence = sentence.strip_prefix("/* ").unwrap().strip_suffix(" */").unwrap();
        all.push((name.split_once(" = ").unwrap().1.trim_end_matches(',').parse().unwrap(), sentence.to_string()));
    }
    all
}

/// A refusal has the number, and the header's sentence for it.
fn is(number: u8, refusal: Option<Refusal>) {
    let refusal = refusal.unwrap_or_else(|| panic!("no refusal, but {number} was expected"));
    assert_eq!(refusal.number(), number);
    let sentence = sentences().into_iter().find(|known| known.0 == number).unwrap().1;
    assert_eq!(refusal.sentence(), sentence);
    assert_eq!(refusal.to_string(), format!("refused {number}: {sentence}"));
}

fn refused<T>(number: u8, told: Result<T, Error>) {
    is(number, told.err().and_then(|error| error.refusal()));
}

fn sheet<T>(number: u8, told: Result<T, Refusal>) {
    is(number, told.err());
}

fn unplaced<T>(number: u8, told: Result<T, Unplaced>) {
    is(number, told.err().and_then(|error| error.refusal()));
}

fn lists(starts: &[u32], columns: &[u32], values: &[f64]) -> RowLists {
    RowLists { starts: starts.to_vec(), columns: columns.to_vec(), values: values.to_vec() }
}

/// The triangle with one byte changed.
fn changed(place: usize, byte: u8) -> Result<Sheet, Refusal> {
    let mut bytes = TRIANGLE;
    bytes[place] = byte;
    Sheet::from_bytes(&bytes)
}

#[test]
fn all_seventeen_are_there_with_the_headers_sentences() {
    let sentences = sentences();
    assert_eq!(sentences.iter().map(|known| known.0).collect::<Vec<_>>(), (1..=17).collect::<Vec<_>>());
    for (number, sentence) in sentences {
        let refusal = Refusal::try_from(u64::from(number)).unwrap();
        is(number, Some(refusal));
        assert_eq!(Refusal::try_from(i64::from(number)), Ok(refusal));
        assert_eq!(Refusal::of_answer(-i64::from(number)), Some(refusal));
        assert_eq!(Refusal::of_answer(i64::from(number)), None);
        assert_eq!(zibrotka::refusal_text(number.into()), Ok(sentence));
    }
}

/// What the crate says of each variant, in the order of the variants.
fn documented() -> Vec<String> {
    let source = include_str!("../src/refusal.rs").split_once("pub enum Refusal {").unwrap().1.split_once("\n}").unwrap().0;
    let mut all = vec![String::new()];
    for line in source.lines().map(str::trim) {
        match line.strip_prefix("/// ") {
            Some(words) => *all.last_mut().unwrap() += &format!("{words} "),
            None => all.push(String::new()),
        }
    }
    all.retain(|words| !words.is_empty());
    all
}

#[test]
fn each_is_documented_by_its_sentence() {
    let documented = documented();
    assert_eq!(documented.len(), 17);
    for ((number, sentence), words) in sentences().into_iter().zip(documented) {
        assert!(words.replace('`', "").starts_with(&format!("{number}: {sentence}. ")), "{words}");
    }
}

#[test]
fn no_other_number_is_a_refusal() {
    for number in [0, 18, 256 + 1, u64::MAX] {
        assert_eq!(Refusal::try_from(number), Err(Refusal::OutOfRange));
        assert_eq!(zibrotka::refusal_text(number), Err(Refusal::OutOfRange));
    }
    for number in [0, 18, -1, -17, i64::MIN, i64::MAX] {
        assert_eq!(Refusal::try_from(number), Err(Refusal::OutOfRange));
    }
    for answer in [0, 17, -18, i64::MIN, i64::MAX] {
        assert_eq!(Refusal::of_answer(answer), None);
    }
}

#[test]
fn refusal_1_a_short_sheet() {
    sheet(1, Sheet::from_bytes(b""));
    sheet(1, Sheet::from_bytes(&TRIANGLE[..10]));
}

#[test]
fn refusal_2_no_mark() {
    sheet(2, changed(0, b'g'));
}

#[test]
fn refusal_3_another_version() {
    sheet(3, changed(3, 2));
}

#[test]
fn refusal_4_counts() {
    sheet(4, changed(5, 0));
    sheet(4, Sheet::from_edges(0, &[], &[], 0));
    sheet(4, Sheet::from_edges(65, &[], &[], 0));
    sheet(4, Sheet::from_edges(usize::MAX, &[], &[], 0));
    sheet(4, Sheet::from_edges(64, &[[0, 1]; 64], &[], 0));
    sheet(4, Sheet::from_edges(64, &[[0, 1]; 63], &[[0, 1, 2]; 257], 0));
    sheet(4, Sheet::from_pentachora(0, &[], 0));
    sheet(4, Sheet::from_pentachora(usize::MAX, &[[0, 1, 2, 3, 4]], 0));
    let scattered: Vec<[u64; 5]> = (0..7).map(|i| [0, 1, 2, 3, 4].map(|v| 5 * i + v)).collect();
    sheet(4, Sheet::from_pentachora(64, &scattered, 0));
}

#[test]
fn refusal_5_a_large_truncation() {
    sheet(5, Sheet::from_edges(1, &[], &[], 1001));
    sheet(5, Sheet::from_edges(1, &[], &[], usize::MAX));
    sheet(5, Sheet::from_pentachora(5, &[[4, 3, 2, 1, 0]], 1001));
}

#[test]
fn refusal_6_a_length() {
    sheet(6, Sheet::from_bytes(&TRIANGLE[..19]));
    sheet(6, Sheet::from_bytes(&[&TRIANGLE[..], &[0]].concat()));
    let mut made = [0; 905];
    assert_eq!(calls::make_sheet(3, &[0, 1, 2], &[], 0, &mut made), -6);
    assert_eq!(calls::make_sheet(3, &[], &[0, 1], 0, &mut made), -6);
}

#[test]
fn refusal_7_an_edge() {
    sheet(7, Sheet::from_edges(3, &[[1, 0]], &[], 0));
    sheet(7, Sheet::from_edges(3, &[[0, 3]], &[], 0));
    sheet(7, Sheet::from_edges(3, &[[0, 1], [0, 1]], &[], 0));
}

#[test]
fn refusal_8_a_triangle() {
    sheet(8, Sheet::from_edges(3, &[[0, 1], [1, 2]], &[[0, 1, 2]], 0));
    sheet(8, Sheet::from_edges(3, triangle().edges(), &[[0, 2, 1]], 0));
    sheet(8, Sheet::from_edges(3, triangle().edges(), &[[0, 1, 2]; 2], 0));
}

#[test]
fn refusal_9_in_several_parts() {
    sheet(9, Sheet::from_edges(2, &[], &[], 0));
    sheet(9, Sheet::from_pentachora(6, &[[0, 1, 2, 3, 4]], 0));
}

#[test]
fn refusal_10_many_candidates_in_u1() {
    let wide = shipped("two-free-edges-512.gls");
    sheet(10, wide.count_states());
    sheet(10, wide.count_entries());
    refused(10, wide.states());
    unplaced(10, wide.config_to_index(&[0; 5]));
    unplaced(10, wide.apply_shift(&[0; 5], 0, 0));
    refused(10, wide.apply_triangle_shift(0, 0));
    refused(10, wide.hamiltonian(1.0, None));
    refused(10, wide.csr(1.0, None));
    refused(10, wide.matvec(1.0, &[], None));
    refused(10, wide.electric_field_sq(&[]));
    refused(10, wide.wilson(&[], &[]));
}

#[test]
fn refusal_10_many_candidates_in_z2() {
    let wide = fan(21);
    sheet(10, wide.su2_count_states());
    sheet(10, wide.su2_count_entries());
    refused(10, wide.su2_states());
    refused(10, wide.su2_hamiltonian(1.0, None));
    refused(10, wide.su2_csr(1.0, None));
    refused(10, wide.su2_matvec(1.0, &[], None));
    refused(10, wide.su2_wilson(&[], &[]));
    refused(10, wide.su2_wilson_passes(&[], &[]));
    assert_eq!(fan(20).su2_count_states(), Ok(1 << 20));
}

#[test]
fn refusal_11_a_pentachoron() {
    sheet(11, Sheet::from_pentachora(5, &[[0, 1, 2, 3, 5]], 0));
    sheet(11, Sheet::from_pentachora(5, &[[0, 1, 2, 3, 4], [0, 1, 2, 3, u64::MAX]], 0));
    sheet(11, Sheet::from_pentachora(5, &[[0, 1, 2, 3, 3]], 0));
    let (mut edges, mut triangles, mut n_triangles) = ([0; 126], [0; 768], 9);
    assert_eq!(calls::from_pentachorons(5, &[0, 1, 2, 3], &mut edges, &mut triangles, &mut n_triangles), -11);
    assert_eq!((edges, triangles, n_triangles), ([0; 126], [0; 768], 9));
}

#[test]
fn refusal_12_a_list_of_another_length() {
    let triangle = triangle();
    for length in [0, 2, 4, 300] {
        let (values, floats) = (vec![0; length], vec![1.0; length]);
        sheet(12, triangle.check_gauss_law(&values));
        unplaced(12, triangle.config_to_index(&values));
        unplaced(12, triangle.apply_shift(&values, 0, 0));
        refused(12, triangle.hamiltonian(1.0, Some(&floats)));
        refused(12, triangle.csr(1.0, Some(&floats)));
        refused(12, triangle.matvec(1.0, &[1.0; 3], Some(&floats)));
        refused(12, triangle.matvec(1.0, &floats, None));
        refused(12, triangle.electric_field_sq(&floats));
        refused(12, triangle.wilson(&[], &floats));
        refused(12, triangle.csr(1.0, None).unwrap().matvec(&floats));
    }
}

#[test]
fn refusal_12_in_z2_and_of_row_lists() {
    let triangle = triangle();
    for length in [0, 3, 300] {
        let floats = vec![1.0; length];
        refused(12, triangle.su2_hamiltonian(1.0, Some(&floats)));
        refused(12, triangle.su2_csr(1.0, Some(&floats)));
        refused(12, triangle.su2_matvec(1.0, &[1.0; 2], Some(&floats)));
        refused(12, triangle.su2_matvec(1.0, &floats, None));
        refused(12, triangle.su2_wilson(&[], &floats));
        refused(12, triangle.su2_wilson_passes(&[], &floats));
        refused(12, triangle.su2_csr(1.0, None).unwrap().matvec(&floats));
    }
    refused(12, lists(&[], &[], &[]).matvec(&[]));
    refused(12, lists(&[0, 1], &[0], &[]).matvec(&[1.0]));
    let mut expectation = 7.0;
    assert_eq!(calls::wilson_loop(&TRIANGLE, &[1.0; 3], &[0, 1], &[1], &mut [0; 9], &mut expectation), -12);
    assert_eq!(expectation, 7.0);
}

#[test]
fn refusal_13_a_number_out_of_range() {
    let triangle = triangle();
    for number in [1, 3, 1 << 32, usize::MAX] {
        sheet(13, triangle.tri_edge_indices(number));
        refused(13, triangle.apply_triangle_shift(number, 0));
    }
    for number in [3, 1 << 32, usize::MAX] {
        unplaced(13, triangle.apply_shift(&[0; 3], number, 0));
        refused(13, triangle.apply_triangle_shift(0, number));
    }
    for step in [(3, 1), (255, -1), (0, 0), (0, 2), (0, -2), (0, i8::MIN), (0, i8::MAX)] {
        refused(13, triangle.wilson(&path(&[(0, 1), step]), &[1.0; 3]));
    }
    for edge in [3, 64, 255] {
        refused(13, triangle.su2_wilson(&[0, edge], &[1.0; 2]));
        refused(13, triangle.su2_wilson_passes(&[edge, edge], &[1.0; 2]));
    }
    refused(13, lists(&[1, 1], &[0], &[1.0]).matvec(&[1.0]));
    refused(13, lists(&[0, 2], &[0], &[1.0]).matvec(&[1.0]));
    refused(13, lists(&[0, 1, 0, 1], &[0], &[1.0]).matvec(&[1.0; 3]));
    refused(13, lists(&[0, 1], &[1], &[1.0]).matvec(&[1.0]));
    refused(13, lists(&[0, 1], &[u32::MAX], &[1.0]).matvec(&[1.0]));
}

#[test]
fn refusal_14_a_coupling() {
    let triangle = triangle();
    for g_squared in wrong_couplings() {
        sheet(14, zibrotka::u1_params(g_squared));
        sheet(14, zibrotka::su2_params(g_squared));
        refused(14, triangle.hamiltonian(g_squared, None));
        refused(14, triangle.csr(g_squared, None));
        refused(14, triangle.matvec(g_squared, &[1.0; 3], None));
        refused(14, triangle.su2_hamiltonian(g_squared, None));
        refused(14, triangle.su2_csr(g_squared, None));
        refused(14, triangle.su2_matvec(g_squared, &[1.0; 2], None));
    }
    for g_squared in [2f64.powi(-32), 2f64.powi(32)] {
        assert_eq!(zibrotka::u1_params(g_squared), Ok([g_squared, g_squared / 2.0, -1.0 / g_squared]));
        assert_eq!(zibrotka::su2_params(g_squared), Ok([g_squared, 3.0 * g_squared / 8.0, -0.5 / g_squared]));
    }
}

#[test]
fn refusal_14_a_weight_or_an_amplitude() {
    let triangle = triangle();
    for float in wrong_floats() {
        let weights = Some(&[float][..]);
        refused(14, triangle.hamiltonian(1.0, weights));
        refused(14, triangle.csr(1.0, weights));
        refused(14, triangle.matvec(1.0, &[1.0; 3], weights));
        refused(14, triangle.su2_hamiltonian(1.0, weights));
        refused(14, triangle.su2_csr(1.0, weights));
        refused(14, triangle.su2_matvec(1.0, &[1.0; 2], weights));
        for place in 0..3 {
            let mut vector = [1.0; 3];
            vector[place] = float;
            refused(14, triangle.matvec(1.0, &vector, None));
            refused(14, triangle.electric_field_sq(&vector));
            refused(14, triangle.wilson(&[], &vector));
            refused(14, triangle.csr(1.0, None).unwrap().matvec(&vector));
            let vector = if place == 0 { [float, 1.0] } else { [1.0, float] };
            refused(14, triangle.su2_matvec(1.0, &vector, None));
            refused(14, triangle.su2_wilson(&[], &vector));
            refused(14, triangle.su2_wilson_passes(&[], &vector));
        }
    }
    for value in [f64::NAN, f64::INFINITY, f64::NEG_INFINITY, beyond(2f64.powi(80)), beyond(-2f64.powi(80))] {
        refused(14, lists(&[0, 1], &[0], &[value]).matvec(&[1.0]));
    }
}

#[test]
fn refusal_14_the_ends_of_the_ranges_pass() {
    let (triangle, most) = (triangle(), 2f64.powi(32));
    for end in [most, -most] {
        assert_eq!(triangle.hamiltonian(1.0, Some(&[end])).unwrap().row(0)[1], -end / 2.0);
        assert_eq!(triangle.wilson(&[], &[end, 0.0, 0.0]), Ok(end * end));
        assert_eq!(triangle.su2_wilson(&[], &[end, 0.0]), Ok(end * end));
    }
    assert_eq!(lists(&[0, 1], &[0], &[2f64.powi(80)]).matvec(&[most]), Ok(vec![2f64.powi(112)]));
}

#[test]
fn refusal_14_factors_of_another_coupling() {
    let (mut states, mut matrix, mut masks) = ([5; 9], [5.0; 9], [5; 2]);
    for coupling in [[1.0, 0.375, -0.5], [1.0, 0.5, 1.0], [2.0, 0.5, -1.0], [1.0, f64::NAN, -1.0], [1.0, 0.5, f64::NAN]] {
        assert_eq!(calls::build_hamiltonian(&TRIANGLE, coupling, false, &[], &mut states, &mut matrix), -14);
    }
    for coupling in [[1.0, 0.5, -1.0], [1.0, 0.375, 0.5], [1.0, f64::NAN, -0.5]] {
        assert_eq!(calls::build_su2_hamiltonian(&TRIANGLE, coupling, false, &[], &mut masks, &mut matrix), -14);
    }
    assert_eq!((states, matrix, masks), ([5; 9], [5.0; 9], [5; 2]));
}

#[test]
fn refusal_15_no_room() {
    let mut text = [7; 200];
    let answer = calls::refusal_text(15, &mut text[..3]);
    is(15, Refusal::of_answer(answer));
    assert_eq!(text, [7; 200]);
    is(15, Refusal::of_answer(calls::enumerate_gauge_invariant(&TRIANGLE, &mut [0; 8])));
}

#[test]
fn refusal_16_out_of_the_band() {
    let triangle = triangle();
    unplaced(16, triangle.apply_shift(&[1, -1, 1], 0, 1));
    unplaced(16, triangle.apply_shift(&[i32::MAX; 3], 2, i32::MAX));
    unplaced(16, triangle.apply_shift(&[i32::MIN; 3], 2, i32::MIN));
    refused(16, triangle.apply_triangle_shift(0, 2));
}

#[test]
fn refusal_17_not_in_the_basis() {
    let triangle = triangle();
    unplaced(17, triangle.config_to_index(&[3, 0, -2]));
    unplaced(17, triangle.config_to_index(&[2, -2, 2]));
    unplaced(17, triangle.apply_shift(&[0, 0, 0], 0, 1));
    let mut states = [5; 9];
    is(17, Refusal::of_answer(calls::config_to_index(&TRIANGLE, &[3, 0, -2], &mut states)));
    is(17, Refusal::of_answer(calls::apply_shift(&TRIANGLE, &[0, 0, 0], 0, 1, &mut states, &mut [0; 3])));
    assert_eq!(states, [5; 9]);
}

#[test]
fn of_several_the_smallest_is_told() {
    let (triangle, wide) = (triangle(), shipped("two-free-edges-512.gls"));
    refused(10, wide.matvec(f64::NAN, &[f64::NAN], Some(&[f64::NAN])));
    refused(12, triangle.matvec(f64::NAN, &[f64::NAN; 3], Some(&[])));
    refused(12, triangle.hamiltonian(0.0, Some(&[f64::NAN; 2])));
    refused(12, triangle.su2_csr(-1.0, Some(&[])));
    refused(13, triangle.wilson(&path(&[(9, 9)]), &[f64::NAN; 3]));
    unplaced(12, triangle.apply_shift(&[0; 2], 9, 9));
    unplaced(13, triangle.apply_shift(&[9; 3], 9, 9));
}
