//! Cases that were made up.

use peer::compare::{desk, enough_agree};

#[test]
fn proved_and_peer_agree() {
    enough_agree::<desk::Tally>();
}
