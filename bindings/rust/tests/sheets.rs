//! The shipped sheets and their states; sheets of many edges and of pentachora.

mod common;
use common::*;
use zibrotka::{ReadError, Sheet};

/// POSIX `cksum` and the lines of what is written to it.
#[derive(Default)]
struct Checked {
    crc: u32,
    bytes: u64,
    lines: u64,
    first: String,
    last: String,
}

impl Checked {
    fn byte(&mut self, byte: u8) {
        self.crc ^= u32::from(byte) << 24;
        for _ in 0..8 {
            self.crc = if self.crc >> 31 == 1 { self.crc << 1 ^ 0x04C1_1DB7 } else { self.crc << 1 };
        }
    }

    fn line(&mut self, line: &str) {
        for byte in line.bytes().chain([b'\n']) {
            self.byte(byte);
        }
        self.bytes += line.len() as u64 + 1;
        self.lines += 1;
        if self.lines == 1 {
            self.first = line.to_string();
        }
        self.last.clear();
        self.last.push_str(line);
    }

    /// As a line of sheets/expected.
    fn told(mut self, name: &str) -> String {
        let mut length = self.bytes;
        while length > 0 {
            self.byte(length as u8);
            length >>= 8;
        }
        format!("{name} | {} | {} | {} | {}", self.lines, !self.crc, self.first, self.last)
    }
}

/// What `basis list` prints of a sheet.
fn listed(sheet: Result<Sheet, ReadError>) -> Checked {
    let (mut checked, mut line) = (Checked::default(), String::new());
    let states = sheet.map_err(|error| error.refusal().unwrap()).and_then(|sheet| match sheet.states() {
        Ok(states) => Ok((sheet, states)),
        Err(error) => Err(error.refusal().unwrap()),
    });
    let (sheet, states) = match states {
        Ok(both) => both,
        Err(refusal) => {
            checked.line(&format!("refused {}", refusal.number()));
            return checked;
        }
    };
    let counts = [sheet.n_vertices(), sheet.edges().len(), sheet.triangles().len(), sheet.truncation(), states.n_states()];
    let words = ["vertices", "edges", "triangles", "lambda", "dim"];
    checked.line(&words.iter().zip(counts).map(|(word, count)| format!("{word} {count}")).collect::<Vec<_>>().join(" "));
    for (place, state) in states.iter().enumerate() {
        line.clear();
        line.push_str(&place.to_string());
        state.iter().for_each(|value| line.extend([" ", &value.to_string()]));
        checked.line(&line);
    }
    checked
}

#[test]
fn the_checksum_is_that_of_cksum() {
    let mut checked = Checked::default();
    checked.line("refused 4");
    assert_eq!(checked.told("name"), "name | 1 | 1196055740 | refused 4 | refused 4");
    assert_eq!(Checked::default().told(""), " | 0 | 4294967295 |  | ");
}

#[test]
fn the_shipped_sheets_have_the_expected_states() {
    let names = names();
    let told = names.iter().map(|name| listed(Sheet::read(shared("sheets").join(name))).told(name));
    let told: Vec<String> = told.collect();
    let expected = text("sheets/expected");
    assert_eq!(told, expected.lines().collect::<Vec<_>>());
}

#[test]
fn the_shipped_sheets_have_as_many_states_as_are_counted() {
    let sheets = names().into_iter().filter_map(|name| Sheet::read(shared("sheets").join(name)).ok());
    let counted = sheets.map(|sheet| {
        assert_eq!(sheet.count_states().ok(), sheet.states().ok().map(|states| states.n_states()));
        assert_eq!(sheet.su2_count_states().ok(), sheet.su2_states().ok().map(|states| states.len()));
        sheet.su2_count_states().unwrap()
    });
    // chain, five-vertices, one-vertex, path, tetrahedron, triangle and the two with two free edges
    assert_eq!(counted.collect::<Vec<_>>(), [4, 64, 1, 1, 8, 2, 4, 4]);
}

#[test]
fn each_state_has_its_place() {
    for (name, n) in [("triangle.gls", 3), ("tetrahedron.gls", 15), ("one-vertex.gls", 1), ("path.gls", 1)] {
        let sheet = shipped(name);
        assert_eq!(sheet.states().unwrap().n_states(), n);
        for (place, state) in sheet.states().unwrap().iter().enumerate() {
            assert_eq!(sheet.config_to_index(state), Ok(place));
            assert_eq!(sheet.check_gauss_law(state), Ok(None));
        }
    }
}

#[test]
fn a_sheet_with_the_most_edges_comes_back() {
    let sheet = front(12, 63, 1000);
    assert_eq!((sheet.edges().len(), sheet.triangles().len(), sheet.truncation()), (63, 192, 1000));
    assert_eq!(sheet.to_bytes().len(), 11 + 2 * 63 + 3 * 192);
    assert_eq!(Sheet::from_bytes(&sheet.to_bytes()), Ok(sheet.clone()));
    assert_eq!((sheet.edges()[62], sheet.triangles()[191]), ([8, 11], [7, 8, 11]));
    assert_eq!((sheet.loops().len(), sheet.su2_loops().len()), (63 - 11, 63 - 11));
}

#[test]
fn pentachora_in_any_order() {
    let one = Sheet::from_pentachora(5, &[[3, 0, 4, 1, 2]], 2).unwrap();
    assert_eq!(one, complete(5, 2));
    assert_eq!(one, shipped("five-vertices.gls"));
    assert_eq!(Sheet::from_pentachora(5, &[[3, 0, 4, 1, 2], [0, 1, 2, 3, 4]], 2), Ok(one));
    let two = Sheet::from_pentachora(6, &[[1, 2, 3, 4, 5], [0, 1, 2, 3, 4]], 0).unwrap();
    assert_eq!((two.edges().len(), two.triangles().len()), (14, 16));
    assert_eq!((two.edges()[0], two.edges()[10], two.edges()[13]), ([1, 2], [0, 1], [0, 4]));
    assert_eq!(Sheet::from_pentachora(1, &[], 7).map(|sheet| sheet.to_bytes().len()), Ok(11));
}

#[test]
fn the_edges_of_each_triangle() {
    for (sheet, n) in [(complete(5, 0), 10), (complete(8, 0), 56), (shipped("tetrahedron.gls"), 4)] {
        assert_eq!(sheet.triangles().len(), n);
        for (number, &[a, b, c]) in sheet.triangles().iter().enumerate() {
            let edges = sheet.tri_edge_indices(number).unwrap().map(|edge| sheet.edges()[edge]);
            assert_eq!(edges, [[a, b], [a, c], [b, c]]);
        }
    }
}
