//! What an answer tells, held against what the call's contract lets it tell.

use crate::refusal::Refusal;

/// The value, or the refusal, which is one of those that the call may tell here.
pub fn told(answer: i64, may_refuse: &[u8]) -> Result<usize, Refusal> {
    if let Ok(value) = usize::try_from(answer) {
        return Ok(value);
    }
    match Refusal::of_answer(answer) {
        Some(refusal) if may_refuse.contains(&refusal.number()) => Err(refusal),
        _ => panic!("the library answered {answer}, which its contract rules out"),
    }
}

/// The same where one value alone can be told.
pub fn told_as(answer: i64, value: usize, may_refuse: &[u8]) -> Result<(), Refusal> {
    let told = told(answer, may_refuse)?;
    assert!(told == value, "the library answered {told} and not {value}, which its contract rules out");
    Ok(())
}

/// A number that the library wrote, which is below a bound.
pub fn below(number: u64, bound: usize) -> usize {
    match usize::try_from(number) {
        Ok(number) if number < bound => number,
        _ => panic!("the library wrote the number {number}, and not one below {bound}, which its contract rules out"),
    }
}

#[cfg(test)]
mod tests {
    use super::*;

    #[test]
    fn a_value_and_a_refusal_are_told() {
        assert_eq!(told(0, &[]), Ok(0));
        assert_eq!(told(i64::MAX, &[]), Ok(i64::MAX as usize));
        assert_eq!(told(-10, &[10, 12]), Err(Refusal::ManyCandidates));
        assert_eq!(told_as(3, 3, &[]), Ok(()));
        assert_eq!(below(62, 63), 62);
    }

    #[test]
    #[should_panic(expected = "the library answered -15, which its contract rules out")]
    fn a_refusal_that_cannot_be_is_not_hidden() {
        let _ = told(-15, &[10, 12]);
    }

    #[test]
    #[should_panic(expected = "the library answered -18, which its contract rules out")]
    fn an_answer_that_is_no_refusal_is_not_hidden() {
        let _ = told(-18, &[10, 12]);
    }

    #[test]
    #[should_panic(expected = "the library answered 4 and not 3, which its contract rules out")]
    fn another_value_is_not_hidden() {
        let _ = told_as(4, 3, &[]);
    }

    #[test]
    #[should_panic(expected = "the library wrote the number 63, and not one below 63")]
    fn a_number_out_of_range_is_not_hidden() {
        below(63, 63);
    }
}
