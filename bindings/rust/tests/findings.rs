//! What is found of a configuration that breaks Gauss's law or is outside the band.

mod common;
use common::*;
use zibrotka::{BreaksLaw, Finding, Refusal, Sheet, Unplaced};

fn breaks(vertex: usize, excess: i64) -> Unplaced {
    Unplaced::NotInBasis(Finding::BreaksLaw { vertex, excess })
}

fn outside(edge: usize) -> Unplaced {
    Unplaced::NotInBasis(Finding::OutsideBand { edge, truncation: 1 })
}

/// A triangle on vertices 1, 2, 3 behind the edge (0, 1).
fn hung() -> Sheet {
    Sheet::from_edges(4, &[[0, 1], [1, 2], [1, 3], [2, 3]], &[[1, 2, 3]], 1).unwrap()
}

#[test]
fn the_law_at_each_vertex() {
    let hung = hung();
    assert_eq!(hung.check_gauss_law(&[0, 1, -1, 1]), Ok(None));
    assert_eq!(hung.check_gauss_law(&[1, 1, -1, 1]), Ok(Some(BreaksLaw { vertex: 0, excess: -1 })));
    assert_eq!(hung.check_gauss_law(&[0, 5, -1, 1]), Ok(Some(BreaksLaw { vertex: 1, excess: -4 })));
    assert_eq!(hung.check_gauss_law(&[0, 1, -1, -2]), Ok(Some(BreaksLaw { vertex: 2, excess: 3 })));
    assert_eq!(hung.check_gauss_law(&[0, 9, -9, 9]), Ok(None));
}

#[test]
fn an_excess_of_more_than_32_bits() {
    let rays: Vec<[u8; 2]> = (1..64).map(|b| [0, b]).collect();
    let star = Sheet::from_edges(64, &rays, &[], 0).unwrap();
    let broken = |excess| Ok(Some(BreaksLaw { vertex: 0, excess }));
    assert_eq!(star.check_gauss_law(&[i32::MAX; 63]), broken(-63 * i64::from(i32::MAX)));
    assert_eq!(star.check_gauss_law(&[i32::MIN; 63]), broken(-63 * i64::from(i32::MIN)));
    assert_eq!(star.config_to_index(&[i32::MIN; 63]), Err(breaks(0, -63 * i64::from(i32::MIN))));
}

#[test]
fn a_place_or_a_finding() {
    let triangle = triangle();
    assert_eq!(triangle.config_to_index(&[-1, 1, -1]), Ok(0));
    assert_eq!(triangle.config_to_index(&[1, -1, 1]), Ok(2));
    assert_eq!(triangle.config_to_index(&[3, 0, -2]), Err(breaks(0, -3)));
    assert_eq!(triangle.config_to_index(&[2, -2, 2]), Err(outside(0)));
    assert_eq!(hung().config_to_index(&[0, 2, -2, 2]), Err(outside(1)));
    assert_eq!(hung().config_to_index(&[0, 2, -2, 3]), Err(breaks(2, -1)));
    assert_eq!(triangle.config_to_index(&[0; 4]), Err(Unplaced::Refused(Refusal::WrongListLength)));
}

#[test]
fn a_shift_to_a_place_or_a_finding() {
    let hung = hung();
    assert_eq!(hung.apply_shift(&[-1, 1, -1, 1], 0, 1), Ok((2, vec![0, 1, -1, 1])));
    assert_eq!(hung.apply_shift(&[0, 0, 0, 7], 3, -7), Ok((1, vec![0; 4])));
    assert_eq!(hung.apply_shift(&[0; 4], 0, 1), Err(breaks(0, -1)));
    assert_eq!(hung.apply_shift(&[0; 4], 3, -1), Err(breaks(2, 1)));
    assert_eq!(hung.apply_shift(&[-1, 2, -2, 2], 0, 1), Err(outside(1)));
    assert_eq!(hung.apply_shift(&[-1, 2, -2, 2], 0, 3), Err(Unplaced::Refused(Refusal::OutOfBand)));
    assert_eq!(hung.apply_shift(&[0; 4], 4, 1), Err(Unplaced::Refused(Refusal::OutOfRange)));
}

#[test]
fn a_finding_in_words() {
    let told = |configuration: &[i32]| triangle().config_to_index(configuration).unwrap_err().to_string();
    assert_eq!(told(&[3, 0, -2]), "refused 17: vertex 0 breaks the law, its sum is -3");
    assert_eq!(told(&[2, -2, 2]), "refused 17: edge 0 is outside -1 to 1");
    assert_eq!(told(&[]), "refused 12: a list does not have the length that it must have");
    let law = triangle().check_gauss_law(&[3, 0, -2]).unwrap().unwrap();
    assert_eq!(law.to_string(), "vertex 0 breaks the law, its sum is -3");
    assert_eq!(Finding::from(law), Finding::BreaksLaw { vertex: 0, excess: -3 });
}
