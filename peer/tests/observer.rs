//! Two runs of an accepted listing from starts that agree for an observer.

use peer::compare::{enough_agree, observer};

#[test]
fn agreeing_starts_cannot_be_told_apart() {
    enough_agree::<observer::Tally>();
}
