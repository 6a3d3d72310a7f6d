//! Reading undoes writing, and the other way round.

use crate::read;
use peer::cases::packet::listings::{any_listing, any_sizes, packet_of};
use peer::cases::packet::Case;
use peer::packet::number::{decode, encode_all};
use peer::random::{seed, Random};

#[test]
fn a_number_is_read_as_it_was_written() {
    let ends = (0..32).flat_map(|bit| [(1 << bit) - 1, 1 << bit]).chain([u32::MAX]);
    let mut random = Random::new(seed(), 0);
    let others = (0..100_000).map(|_| random.word() >> random.below(32));
    for number in ends.chain(others) {
        let mut bytes = encode_all([number]);
        assert!(bytes.len() <= 5);
        bytes.push(0xa5);
        assert_eq!(decode(&bytes), Ok((number, &[0xa5][..])));
    }
}

#[test]
fn a_listing_is_taken_with_its_numbers() {
    for number in 0..2_000 {
        let mut random = Random::new(seed(), number);
        let sizes = any_sizes(&mut random);
        let entries = any_listing(&mut random, sizes);
        let numbers = entries.iter().map(|entry| entry.value).collect();
        assert_eq!(read(&packet_of(&entries)), Ok(numbers));
    }
}

#[test]
fn numbers_that_are_taken_make_the_same_packet() {
    for number in 0..20_000 {
        let case = Case::new(seed(), number);
        if let Ok(numbers) = read(&case.packet) {
            assert_eq!(encode_all(numbers), case.packet);
        }
    }
}
