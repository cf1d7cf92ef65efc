//! All exported calls: each is declared as in the header, and each is called.

mod common;
use common::*;
use std::collections::BTreeMap;
use std::thread;
use zibrotka::calls::*;

/// A function's parameters, each with its type, and its result at the end.
type Signature = Vec<(String, String)>;

/// A call by its exported name, with its answer and the one that it should give.
type Called = (&'static str, i64, i64);

const SHEET: &[u8] = &TRIANGLE;

/// The calls of a complex, and those that need no sheet.
fn complexes() -> Vec<Called> {
    let (bytes, more, ways) = (&mut [0; EDGE_BYTES], &mut [0; TRIANGLE_BYTES], &mut [0; 3]);
    let (starts, free, sums, [a, b, c, d]) = (&mut [0; 2], &mut [0; 1], &mut [0.0; 1], &mut [0; 4]);
    vec![
        ("make_sheet", make_sheet(3, &SHEET[11..17], &SHEET[17..], 1, bytes), 20),
        ("read_sheet", read_sheet(SHEET, a, b, c, d, bytes, more), 0),
        ("tri_edge_indices", tri_edge_indices(SHEET, 0, &mut [0; 3]), 0),
        ("from_pentachorons", from_pentachorons(5, &[0, 1, 2, 3, 4], bytes, more, a), 10),
        ("spanning_tree", spanning_tree(SHEET, starts, free), 1),
        ("fundamental_loops", fundamental_loops(SHEET, starts, bytes, ways), 1),
        ("su2_fundamental_loops", su2_fundamental_loops(SHEET, starts, bytes), 1),
        ("u1_params", u1_params(1.0, &mut [0.0; 3]), 0),
        ("su2_params", su2_params(1.0, &mut [0.0; 3]), 0),
        ("matvec", matvec(&[0, 1], &[0], &[1.0], &[1.0], sums), 0),
        ("refusal_text", refusal_text(17, &mut [0; TEXT_BYTES]), "the configuration is not in the basis".len() as i64),
        ("release", i64::try_from(release()).unwrap(), 10000),
    ]
}

/// The calls of U(1) for states and places.
fn u1_states() -> Vec<Called> {
    let (configuration, states, shifted) = (&[0; 3], &mut [0; 9], &mut [0; 3]);
    let ([vertex, edge], excess) = (&mut [0; 2], &mut 0);
    let found = config_to_index_finding(SHEET, configuration, states, vertex, excess, edge);
    let moved = apply_shift_finding(SHEET, configuration, 0, 0, states, shifted, vertex, excess, edge);
    vec![
        ("check_gauss_law", check_gauss_law(SHEET, configuration), 1),
        ("check_gauss_law_finding", check_gauss_law_finding(SHEET, configuration, vertex, excess), 1),
        ("enumerate_gauge_invariant", enumerate_gauge_invariant(SHEET, states), 3),
        ("count_states", count_states(SHEET), 3),
        ("config_to_index", config_to_index(SHEET, configuration, states), 1),
        ("config_to_index_finding", found, 1),
        ("apply_shift", apply_shift(SHEET, configuration, 0, 0, states, shifted), 1),
        ("apply_shift_finding", moved, 1),
        ("apply_triangle_shift", apply_triangle_shift(SHEET, 0, 1, states), 2),
    ]
}

/// The calls of U(1) for matrices and expectations.
fn u1_floats() -> Vec<Called> {
    let (coupling, vector, states, sums, sum) = ([1.0, 0.5, -1.0], &[1.0, 2.0, 3.0], &mut [0; 9], &mut [0.0; 9], &mut 0.0);
    let (starts, columns, values) = (&mut [0; 4], &mut [0; 6], &mut [0.0; 6]);
    vec![
        ("build_hamiltonian", build_hamiltonian(SHEET, coupling, false, &[], states, sums), 3),
        ("build_csr", build_csr(SHEET, coupling, false, &[], states, starts, columns, values), 6),
        ("count_entries", count_entries(SHEET), 6),
        ("hamiltonian_matvec", hamiltonian_matvec(SHEET, coupling, false, &[], vector, states, sums), 3),
        ("electric_field_sq", electric_field_sq(SHEET, vector, states, sums), 3),
        ("wilson_loop", wilson_loop(SHEET, vector, &[0], &[1], states, sum), 0),
    ]
}

/// The calls of Z2.
fn z2() -> Vec<Called> {
    let (coupling, vector, masks, sums, sum) = ([1.0, 0.375, -0.5], &[3.0, 5.0], &mut [0; 2], &mut [0.0; 4], &mut 0.0);
    let (starts, columns, values) = (&mut [0; 3], &mut [0; 3], &mut [0.0; 3]);
    vec![
        ("su2_basis", su2_basis(SHEET, masks), 2),
        ("su2_count_states", su2_count_states(SHEET), 2),
        ("build_su2_hamiltonian", build_su2_hamiltonian(SHEET, coupling, false, &[], masks, sums), 2),
        ("build_csr_su2", build_csr_su2(SHEET, coupling, false, &[], masks, starts, columns, values), 3),
        ("su2_count_entries", su2_count_entries(SHEET), 3),
        ("su2_hamiltonian_matvec", su2_hamiltonian_matvec(SHEET, coupling, false, &[], vector, masks, sums), 2),
        ("su2_wilson_loop", su2_wilson_loop(SHEET, vector, &[0], masks, sum), 0),
        ("su2_wilson_passes", su2_wilson_passes(SHEET, vector, &[0], masks, sum), 0),
    ]
}

/// Each call once.
fn called() -> Vec<Called> {
    [complexes(), u1_states(), u1_floats(), z2()].concat()
}

/// The text without its comments, and its blanks as single ones.
fn bare(text: &str, begin: &str, end: &str) -> String {
    let mut parts = text.split(begin);
    let first = parts.next().unwrap().to_string();
    let rest = parts.map(|part| part.split_once(end).map_or("", |(_, behind)| behind));
    rest.fold(first, |all, part| all + " " + part).split_whitespace().collect::<Vec<_>>().join(" ")
}

/// A type or a parameter of C in Rust.
fn in_rust(parameter: &str) -> (String, String) {
    let (constant, parameter) = parameter.strip_prefix("const ").map_or(("mut", parameter), |rest| ("const", rest));
    let (kind, name) = parameter.split_once(' ').unwrap();
    let kind = match kind {
        "uint64_t" => "u64",
        "int64_t" => "i64",
        "uint32_t" => "u32",
        "int32_t" => "i32",
        "uint8_t" => "u8",
        "int8_t" => "i8",
        "size_t" => "usize",
        "double" => "f64",
        "bool" => "bool",
        other => panic!("the type {other}"),
    };
    if let Some((name, length)) = name.strip_suffix(']').and_then(|name| name.split_once('[')) {
        return (name.into(), format!("*mut [{kind}; {}]", length.trim_start_matches("ZIBROTKA_")));
    }
    match name.strip_prefix('*') {
        Some(name) => (name.into(), format!("*{constant} {kind}")),
        None => (name.into(), kind.into()),
    }
}

/// The functions of the header.
fn of_the_header() -> BTreeMap<String, Signature> {
    let header = bare(&header(), "/*", "*/");
    let mut functions = BTreeMap::new();
    for piece in header.split(';').filter(|piece| piece.contains("_t zibrotka_") && piece.ends_with(')')) {
        let begin = piece.rfind("int64_t zibrotka_").map(|at| if piece[..at].ends_with('u') { at - 1 } else { at }).unwrap();
        let (head, parameters) = piece[begin..].strip_suffix(')').unwrap().split_once('(').unwrap();
        let (name, result) = in_rust(head);
        let parameters = parameters.split(", ").filter(|&parameter| parameter != "void").map(in_rust);
        functions.insert(name, parameters.chain([(String::new(), result)]).collect());
    }
    functions
}

/// The functions that this crate declares.
fn declared() -> BTreeMap<String, Signature> {
    let raw = bare(include_str!("../src/raw.rs"), "//", "\n");
    let mut functions = BTreeMap::new();
    for piece in raw.split(" fn ").skip(1) {
        let (name, rest) = piece.split_once('(').unwrap();
        let (parameters, rest) = rest.split_once(") -> ").unwrap();
        let pair = |parameter: &str| parameter.trim().split_once(": ").map(|(name, kind)| (name.to_string(), kind.to_string()));
        let parameters = parameters.split(',').filter_map(pair);
        let result = (String::new(), rest.split_once(';').unwrap().0.to_string());
        functions.insert(name.to_string(), parameters.chain([result]).collect());
    }
    functions
}

#[test]
fn each_declaration_is_the_headers() {
    let (declared, header) = (declared(), of_the_header());
    assert_eq!(declared.keys().collect::<Vec<_>>(), header.keys().collect::<Vec<_>>());
    for (name, signature) in header {
        assert_eq!(declared[&name], signature, "{name}");
    }
}

#[test]
fn each_call_is_called_and_answers() {
    let header = of_the_header();
    let mut names: Vec<String> = called().iter().map(|(name, ..)| format!("zibrotka_{name}")).collect();
    names.sort();
    assert_eq!(names, header.keys().cloned().collect::<Vec<_>>());
    for (name, answer, right) in called() {
        assert_eq!(answer, right, "{name}");
    }
}

#[test]
fn each_call_takes_256_kib_of_stack_at_most() {
    let all = thread::Builder::new().stack_size(256 << 10).spawn(|| called().len()).unwrap().join().unwrap();
    assert_eq!(all, of_the_header().len());
}

#[test]
fn each_call_judges_the_release_first() {
    let calls = include_str!("../src/calls.rs");
    let but_release = of_the_header().len() - 1;
    assert_eq!(calls.matches("unsafe {").count(), but_release);
    assert_eq!(calls.matches("\n    judge_release();\n    unsafe {").count(), but_release);
}

#[test]
fn the_lengths_are_the_headers() {
    let header = header();
    for (name, value) in [("EDGE", EDGE_BYTES), ("TRIANGLE", TRIANGLE_BYTES), ("SHEET", SHEET_BYTES), ("TEXT", TEXT_BYTES)] {
        assert!(header.contains(&format!("#define ZIBROTKA_{name}_BYTES {value}\n")), "{name}");
    }
}

#[test]
fn the_page_names_the_oldest_rust() {
    let oldest = format!("needs Rust {} or later", env!("CARGO_PKG_RUST_VERSION"));
    assert!(include_str!("../README.md").contains(&oldest), "{oldest}");
}
