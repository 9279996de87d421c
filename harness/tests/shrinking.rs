//! A failing case is cut down to what makes it fail.

use std::time::Duration;

use harness::case::{Call, Case};
use harness::generate;
use harness::random::Random;
use harness::shrink::shrink;

/// Fails if a tick comes after a back and one memory byte is not 0.
fn fails(case: &Case) -> bool {
    let back = case.calls.iter().position(|call| *call == Call::Back);
    let tick = case.calls.iter().rposition(|call| *call == Call::Tick);
    matches!((back, tick), (Some(back), Some(tick)) if back < tick)
        && case.start.memory.get(0x321).is_some_and(|&byte| byte != 0)
}

#[test]
fn only_what_matters_is_left() {
    let random = Random::new(2);
    let case = std::iter::repeat_with(|| generate::case(&random))
        .find(|case| fails(case) && case.calls.len() > 20)
        .expect("the row of cases has no end");
    let short = shrink(case, Duration::from_secs(20), &fails);
    assert_eq!(short.calls, [Call::Back, Call::Tick]);
    let left = short.start.memory.iter().filter(|&&byte| byte != 0).count();
    assert_eq!(left, 1);
    assert!(short.start.picture.iter().all(|&byte| byte == 0));
    assert!(short.start.history.iter().all(|&byte| byte == 0));
}
