//! Packets that were made up, and all next to K1.

use peer::cases::listing::Case;
use peer::cases::packet::pieces::K1;
use peer::compare::listing::Tally;
use peer::compare::{agree_next_to, enough_agree};

#[test]
fn proved_and_peer_agree() {
    enough_agree::<Tally>();
}

#[test]
fn they_agree_on_k1_with_any_byte_changed_or_put_in() {
    agree_next_to(&K1, |packet| Case { packet, code: vec![0xa5; K1.len()] });
}
