//! The one number that every call answers: number * 2^56 + place * 2^32 + count.

pub fn pack(number: u8, place: u32, count: u32) -> u64 {
    u64::from(number) << 56 | u64::from(place) << 32 | u64::from(count)
}

/// Number, place and count of an answer.
pub fn unpack(answer: u64) -> (u8, u32, u32) {
    ((answer >> 56) as u8, (answer >> 32) as u32 & 0xff_ffff, answer as u32)
}
