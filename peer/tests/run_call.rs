//! The bare machine through its call on byte buffers, on cases that were made up.

use peer::compare::{enough_agree, run};

#[test]
fn proved_and_peer_agree() {
    enough_agree::<run::Tally>();
}
