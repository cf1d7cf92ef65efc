//! The quick run, with its exhaustive parts, and the long one.

use crate::amplitude_runs;
use crate::case::{Tally, run};
use crate::coupling_runs;
use crate::dense_runs;
use crate::even_product_runs;
use crate::finding_runs;
use crate::inputs;
use crate::law_runs;
use crate::lent::Room;
use crate::mask_runs;
use crate::pentachora::FromPentachora;
use crate::place_runs;
use crate::random::Random;
use crate::reference::{self, HEADER, Sheet};
use crate::row_runs;
use crate::rust;
use crate::sheets::{MakeSheet, ReadSheet, TriangleEdges, sheet, whole};
use std::time::{Duration, Instant};

pub const QUICK_SEED: u64 = 20_261_115;
const QUICK_ROUNDS: usize = 12_000;

type Part = (&'static str, fn(&mut Tally));

pub fn quick() -> Tally {
    let mut tally = Tally::default();
    println!("quick run, seed {QUICK_SEED}");
    let parts: [Part; 41] = [
        ("cases that were written down", written_down),
        ("every short list of pentachora", short_pentachora),
        ("every sheet of a few small numbers", small_sheets),
        ("every change of one byte", one_byte_changed),
        ("every length", lengths),
        ("random inputs", |tally| {
            let mut random = Random::new(QUICK_SEED);
            for _ in 0..QUICK_ROUNDS {
                random_round(&mut random, tally);
            }
        }),
        ("trees, laws and lists that were written down", law_runs::written_down),
        ("every graph on up to five vertices", law_runs::small_graphs),
        ("every number of free edges", law_runs::limits),
        ("random complexes and configurations", law_runs::random_rounds),
        ("places and shifts that were written down", place_runs::written_down),
        ("long lists", place_runs::long_lists),
        ("every triangle of every state of small graphs", place_runs::small_graphs),
        ("random places and shifts", place_runs::random_rounds),
        ("every vertex that can be the lowest", finding_runs::every_vertex),
        ("every edge that can be the lowest", finding_runs::every_edge),
        ("sums beyond 32 bits", finding_runs::far_sums),
        ("findings on every graph on up to five vertices", finding_runs::small_graphs),
        ("random findings", finding_runs::random_rounds),
        ("masks that were written down", mask_runs::written_down),
        ("masks of every graph on up to five vertices", mask_runs::small_graphs),
        ("masks of every number of free edges", mask_runs::limits),
        ("random masks", mask_runs::random_rounds),
        ("couplings", coupling_runs::quick),
        ("dense matrices that were written down", dense_runs::written_down),
        ("large dense matrices", dense_runs::large),
        ("dense matrices of every graph on up to five vertices", dense_runs::small_graphs),
        ("random dense matrices", dense_runs::random_rounds),
        ("row lists that were written down", row_runs::written_down),
        ("every short product", row_runs::short_products),
        ("long row lists", row_runs::large),
        ("row lists of every graph on up to five vertices", row_runs::small_graphs),
        ("random row lists and products", row_runs::random_rounds),
        ("two-valued products and loops that were written down", even_product_runs::written_down),
        ("long two-valued products", even_product_runs::large),
        ("two-valued products of every graph on up to five vertices", even_product_runs::small_graphs),
        ("random two-valued products and loops", even_product_runs::random_rounds),
        ("products and expectations that were written down", amplitude_runs::written_down),
        ("products and expectations over long lists", amplitude_runs::large),
        ("products and expectations of every graph on up to five vertices", amplitude_runs::small_graphs),
        ("random products and expectations", amplitude_runs::random_rounds),
    ];
    for (name, part) in parts {
        let start = Instant::now();
        part(&mut tally);
        println!("{name}: {:.1} s", start.elapsed().as_secs_f64());
    }
    tally
}

pub fn long(seed: u64, minutes: f64) -> Tally {
    let mut tally = Tally::default();
    println!("long run, seed {seed}, {minutes} minutes");
    let mut random = Random::new(seed);
    let end = Instant::now() + Duration::from_secs_f64(60.0 * minutes);
    while Instant::now() < end {
        for round in 0..100 {
            random_round(&mut random, &mut tally);
            law_runs::random_round(&mut random, if round == 0 { reference::MOST_CANDIDATES } else { 3_000 }, &mut tally);
            place_runs::random_round(&mut random, if round == 0 { 100_000 } else { 1_000 }, &mut tally);
            finding_runs::random_round(&mut random, if round == 0 { 100_000 } else { 1_000 }, &mut tally);
            mask_runs::random_round(&mut random, if round == 0 { mask_runs::MOST_FREE } else { 11 }, &mut tally);
            coupling_runs::random_round(&mut random, &mut tally);
            dense_runs::random_round(&mut random, if round == 0 { 2_000 } else { 250 }, &mut tally);
            row_runs::random_round(&mut random, if round == 0 { 4_000 } else { 250 }, &mut tally);
            even_product_runs::random_round(&mut random, if round == 0 { 4_000 } else { 250 }, &mut tally);
            amplitude_runs::random_round(&mut random, if round == 0 { 4_000 } else { 250 }, &mut tally);
        }
    }
    tally
}

/// A few inputs for each call.
fn random_round(random: &mut Random, tally: &mut Tally) {
    let case = inputs::any_pentachora(random);
    run(&case, tally);
    run(&inputs::any_pentachora(random), tally);
    run(&inputs::any_make(random), tally);
    whole(&inputs::right_sheet(random), tally);
    for _ in 0..2 {
        let bytes = inputs::any_sheet_bytes(random);
        run(&ReadSheet { bytes: bytes.clone() }, tally);
        run(&TriangleEdges { sheet: bytes }, tally);
    }
    // the triangles of what pentachora give, where that is a sheet
    if reference::pentachora(case.n_vertices, &case.list).is_ok() {
        let complex = rust::lists(&rust::from_pentachora(case.n_vertices, &case.list));
        if complex.edges.len() <= reference::MOST_EDGES && complex.triangles.len() <= reference::MOST_TRIANGLES {
            whole(&Sheet { complex, lambda: random.between(0, 1000) }, tally);
        }
    }
}

/// The sheets of the scope paper and the ends of its ranges.
fn written_sheets() -> Vec<Sheet> {
    let six = [[0, 1], [0, 2], [0, 3], [1, 2], [1, 3], [2, 3]];
    let path = |vertices: u8| -> Vec<[u8; 2]> { (1..vertices).map(|vertex| [vertex - 1, vertex]).collect() };
    let mut sheets = vec![
        sheet(1, &[], &[], 0),
        sheet(1, &[], &[], 1000),
        sheet(2, &[[0, 1]], &[], 1),
        sheet(3, &six[0..2], &[], 256),
        sheet(3, &[[0, 1], [0, 2], [1, 2]], &[[0, 1, 2]], 1),
        sheet(4, &six, &[], 1),
        sheet(4, &six, &[[0, 1, 2], [0, 1, 3], [0, 2, 3], [1, 2, 3]], 1),
        sheet(64, &path(64), &[], 3),
        sheet(6, &[[0, 1], [0, 2], [1, 2], [3, 4], [3, 5], [4, 5]], &[[0, 1, 2], [3, 4, 5]], 1),
        sheet(0, &[], &[], 1),
        sheet(65, &path(64), &[], 1),
        sheet(2, &[], &[], 1),
    ];
    // 193 triangles are the most that 63 edges bear; from 194 on one comes twice, and 257 are out of range
    for triangles in [192, 193, 194, 255, 256] {
        sheets.push(Sheet { complex: inputs::fullest(triangles), lambda: 1000 });
    }
    let mut over = inputs::fullest(256);
    over.triangles.push([0, 1, 2]);
    sheets.push(Sheet { complex: over, lambda: 1 });
    sheets
}

fn written_down(tally: &mut Tally) {
    for sheet in written_sheets() {
        whole(&sheet, tally);
        for spare in [-1, 0, 1, 100] {
            run(&MakeSheet::of(&sheet, spare), tally);
        }
        for lambda in [0, 1000, 1001, 65_535, 65_536, 65_537, u64::MAX] {
            run(&MakeSheet { lambda, ..MakeSheet::of(&sheet, 0) }, tally);
        }
        for n_vertices in [0, 1, 64, 65, 255, 256, 257, 259, 65_539, (1 << 32) + 3, 1 << 63, u64::MAX] {
            run(&MakeSheet { n_vertices, ..MakeSheet::of(&sheet, 0) }, tally);
        }
    }
    // a chain of fives that meet in one vertex each; seven have more edges than are taken
    let chain = |fives: u64| -> Vec<u64> { (0..fives).flat_map(|five| (0..5).map(move |at| 4 * five + at)).collect() };
    for fives in 0..8 {
        let list = chain(fives);
        for vertices in [0, 1, 4 * fives, 4 * fives + 1, 4 * fives + 2, 64, 65, 256, (1 << 32) + 5, u64::MAX] {
            for room in Room::ALL {
                run(&FromPentachora { n_vertices: vertices, list: list.clone(), room }, tally);
            }
        }
    }
    // a fault behind too many edges is told first
    for fives in 6..12 {
        for fault in [vec![0], vec![0, 1, 2, 3], vec![0, 1, 2, 3, 3], vec![0, 1, 2, 3, 64], vec![0, 1, 2, 3, u64::MAX]] {
            run(&FromPentachora { n_vertices: 64, list: [chain(fives), fault].concat(), room: Room::Ample }, tally);
        }
    }
    // a long list that repeats itself, right and with a fault at its end
    for last in [4, 3, 25] {
        let mut list = chain(6).repeat(400);
        list.extend([0, 1, 2, 3, last]);
        run(&FromPentachora { n_vertices: 25, list, room: Room::Exact }, tally);
    }
}

/// All sorted fives of the first vertices.
fn fives(vertices: u64) -> Vec<[u64; 5]> {
    let mut all = vec![];
    for mask in 0..1_u64 << vertices {
        if mask.count_ones() == 5 {
            let members: Vec<u64> = (0..vertices).filter(|vertex| mask >> vertex & 1 == 1).collect();
            all.push(members.try_into().expect("five bits"));
        }
    }
    all
}

/// The same five in a few orders.
fn orders(five: [u64; 5]) -> Vec<[u64; 5]> {
    let [a, b, c, d, e] = five;
    vec![five, [e, d, c, b, a], [b, a, d, c, e], [c, e, a, d, b]]
}

fn short_pentachora(tally: &mut Tally) {
    // lists of up to two fives on up to seven vertices, each in a few orders; up to three on six
    for vertices in 1..=7 {
        let mut lists: Vec<Vec<u64>> = vec![vec![]];
        for one in fives(vertices) {
            for first in orders(one) {
                lists.push(first.to_vec());
                for two in fives(vertices) {
                    for second in orders(two) {
                        lists.push([first, second].concat());
                    }
                }
            }
        }
        if vertices <= 6 {
            for one in fives(vertices) {
                for two in fives(vertices) {
                    for three in fives(vertices) {
                        lists.push([one, two, three].concat());
                    }
                }
            }
        }
        for list in lists {
            run(&FromPentachora { n_vertices: vertices, list, room: Room::Ample }, tally);
        }
    }
    // every room for lists of up to two sorted fives
    for one in fives(6) {
        for two in fives(6) {
            for room in Room::ALL {
                for vertices in 5..=7 {
                    run(&FromPentachora { n_vertices: vertices, list: one.to_vec(), room }, tally);
                    run(&FromPentachora { n_vertices: vertices, list: [one, two].concat(), room }, tally);
                }
            }
        }
    }
    // every five numbers up to the number of vertices, alone and behind a right one
    for vertices in 1..=6_u64 {
        let values = vertices + 1;
        for code in 0..values.pow(5) {
            let list: Vec<u64> = (0..5).map(|at| code / values.pow(at) % values).collect();
            run(&FromPentachora { n_vertices: vertices, list: list.clone(), room: Room::Ample }, tally);
            if vertices == 5 {
                run(&FromPentachora { n_vertices: vertices, list: [vec![4, 2, 0, 3, 1], list].concat(), room: Room::Ample }, tally);
            }
        }
    }
    // every length, and numbers that narrower words would lose, at every place
    for vertices in [5, 6] {
        for len in 0..=21 {
            let list: Vec<u64> = (0..len).map(|at| at % 5).collect();
            run(&FromPentachora { n_vertices: vertices, list, room: Room::Ample }, tally);
        }
        for at in 0..10 {
            for value in [vertices, 64, 255, 256, 261, 65_536, 1 << 32, (1 << 32) + 1, 1 << 63, u64::MAX] {
                let mut list = vec![0, 1, 2, 3, 4, 4, 3, 2, 1, 0];
                list[at] = value;
                run(&FromPentachora { n_vertices: vertices, list, room: Room::Ample }, tally);
            }
        }
    }
}

/// All lists of so many numbers, each from 0 to a highest one.
fn tuples(len: u32, highest: u8) -> impl Iterator<Item = Vec<u8>> {
    let values = u64::from(highest) + 1;
    (0..values.pow(len)).map(move |code| (0..len).map(|at| (code / values.pow(at) % values) as u8).collect())
}

fn small_sheets(tally: &mut Tally) {
    let mut both = |n_vertices: u8, edges: &[u8], triangles: &[u8]| {
        let header = [b'G', b'L', b'S', 1, 0, n_vertices, (edges.len() / 2) as u8, (triangles.len() / 3) as u8, 0, 1, 0];
        run(&ReadSheet { bytes: [&header, edges, triangles].concat() }, tally);
        let make =
            MakeSheet { n_vertices: n_vertices.into(), edges: edges.to_vec(), triangles: triangles.to_vec(), lambda: 1, spare: 0 };
        run(&make, tally);
    };
    // up to two edges and one triangle of any numbers, on up to four vertices
    for n_vertices in 0..=4 {
        for n_edges in 0..=2 {
            for edges in tuples(2 * n_edges, n_vertices.min(3)) {
                both(n_vertices, &edges, &[]);
                both(n_vertices, &edges, &[0, 1, 2]);
            }
        }
    }
    // any three edges under the one triangle; any two triangles over three edges; any one over five of the six edges
    for edges in tuples(6, 3) {
        both(3, &edges, &[0, 1, 2]);
    }
    for triangles in tuples(6, 3) {
        both(3, &[0, 1, 0, 2, 1, 2], &triangles);
        both(4, &[0, 1, 0, 2, 0, 3, 1, 2, 1, 3, 2, 3], &triangles);
    }
    let six: [[u8; 2]; 6] = [[0, 1], [0, 2], [0, 3], [1, 2], [1, 3], [2, 3]];
    for left_out in 0..6 {
        let edges: Vec<u8> = (0..6).filter(|&at| at != left_out).flat_map(|at| six[at]).collect();
        for triangle in tuples(3, 4) {
            both(4, &edges, &triangle);
        }
    }
    // every graph on up to five vertices, with all its triangles
    for n_vertices in 1..=5_u8 {
        let pairs: Vec<[u8; 2]> = (0..n_vertices).flat_map(|b| (0..b).map(move |a| [a, b])).collect();
        for mask in 0..1_u32 << pairs.len() {
            let edges: Vec<[u8; 2]> = (0..pairs.len()).filter(|&at| mask >> at & 1 == 1).map(|at| pairs[at]).collect();
            both(n_vertices, &edges.concat(), &inputs::closed(&edges).concat());
        }
    }
}

/// Sheets that are small enough for every change of every byte.
fn small_examples() -> Vec<Vec<u8>> {
    let mut sheets: Vec<Vec<u8>> = written_sheets()[..7].iter().map(reference::encode).collect();
    let five = rust::lists(&rust::from_pentachora(5, &[0, 1, 2, 3, 4]));
    sheets.push(reference::encode(&Sheet { complex: five, lambda: 1000 }));
    let mut random = Random::new(QUICK_SEED);
    while sheets.len() < 14 {
        let bytes = reference::encode(&inputs::right_sheet(&mut random));
        if bytes.len() < 80 && bytes[7] > 0 {
            sheets.push(bytes);
        }
    }
    sheets
}

fn one_byte_changed(tally: &mut Tally) {
    for bytes in small_examples() {
        for at in 0..bytes.len() {
            for value in 0..=255 {
                let mut changed = bytes.clone();
                changed[at] = value;
                run(&TriangleEdges { sheet: changed.clone() }, tally);
                law_runs::any_bytes(&changed, tally);
                place_runs::any_bytes(&changed, tally);
                mask_runs::any_bytes(&changed, tally);
                dense_runs::any_bytes(&changed, tally);
                row_runs::any_bytes(&changed, tally);
                even_product_runs::any_bytes(&changed, tally);
                amplitude_runs::any_bytes(&changed, tally);
                run(&ReadSheet { bytes: changed }, tally);
            }
        }
    }
}

fn lengths(tally: &mut Tally) {
    for bytes in small_examples() {
        for len in 0..bytes.len() + 8 {
            let mut other = bytes.clone();
            other.resize(len, 1);
            run(&ReadSheet { bytes: other.clone() }, tally);
            law_runs::any_bytes(&other, tally);
            place_runs::any_bytes(&other, tally);
            mask_runs::any_bytes(&other, tally);
            dense_runs::any_bytes(&other, tally);
            row_runs::any_bytes(&other, tally);
            even_product_runs::any_bytes(&other, tally);
            amplitude_runs::any_bytes(&other, tally);
            run(&TriangleEdges { sheet: other }, tally);
        }
        // each byte taken out, and each put in twice
        for at in 0..bytes.len() {
            let mut shorter = bytes.clone();
            shorter.remove(at);
            run(&ReadSheet { bytes: shorter }, tally);
            let mut longer = bytes.clone();
            longer.insert(at, bytes[at]);
            run(&ReadSheet { bytes: longer }, tally);
        }
        // every length of the list that takes the sheet
        if let Ok(sheet) = reference::read_sheet(&bytes) {
            for room in 0..bytes.len() + 4 {
                run(&MakeSheet::of(&sheet, room as i64 - bytes.len() as i64), tally);
            }
        }
    }
    // every length of the flat lists around their ends
    let right = inputs::fullest(193);
    let (edges, triangles) = (right.flat_edges(), right.flat_triangles());
    for len in (0..8).chain(120..140) {
        let edges = edges.iter().cycle().take(len).copied().collect();
        run(&MakeSheet { n_vertices: 12, edges, triangles: vec![], lambda: 1, spare: HEADER as i64 }, tally);
    }
    for len in (0..8).chain(572..590).chain(760..780) {
        let triangles = triangles.iter().cycle().take(len).copied().collect();
        run(&MakeSheet { n_vertices: 12, edges: edges.clone(), triangles, lambda: 1, spare: 0 }, tally);
    }
}
