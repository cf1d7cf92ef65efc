//! Compared, then timed.

use crate::clock::nanoseconds;
use crate::lists::{Given, Lent};
use std::hint::black_box;

/// Nanoseconds a call.
pub struct Times {
    pub port: f64,
    pub rust: f64,
    /// Every lent list written once by memset and every given list read once; none where there is nothing in them.
    pub limit: Option<f64>,
}

/// Both sides and the limit, once the port's answer and every bit of its lists are what is expected of what the Rust made. The port fills
/// the same lists again and again; the Rust makes its own anew each time.
pub fn compared<L: Lent, R>(
    given: &[&dyn Given],
    port: impl Fn(&mut L) -> i64,
    mut rust: impl FnMut() -> R,
    expected: impl Fn(R) -> (i64, L),
) -> Times {
    let (answer, lists) = expected(rust());
    let mut lent = lists.clone();
    lent.wipe();
    assert_eq!(port(&mut lent), answer);
    assert!(lent.same(&lists));
    drop(lists);
    let port = nanoseconds(|| port(black_box(&mut lent)));
    let there = given.iter().any(|list| !list.is_empty()) || !lent.is_empty();
    let limit = there.then(|| {
        nanoseconds(|| {
            black_box(&mut lent).wipe();
            black_box(given).iter().fold(0, |sum: u64, list| sum.wrapping_add(list.pass()))
        })
    });
    drop(lent);
    Times { port, rust: nanoseconds(rust), limit }
}
