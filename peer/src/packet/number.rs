//! One number of a packet: groups of seven bits, lowest group first, the top bit
//! set on all but the last byte, in the shortest form and below 2^32.

const GROUP_BITS: u32 = 7;
const MORE: u8 = 0x80;
pub const MOST_BYTES: usize = 5;

/// Why there is no number, in the order in which 01 asks.
#[derive(Clone, Copy, Debug, PartialEq, Eq)]
pub enum Fault {
    /// The bytes end before the number's last or fifth byte.
    End,
    /// Not the shortest form, or too long or too large.
    Form,
}

/// The number at the head of the bytes, and the bytes behind it.
#[inline]
pub fn decode(bytes: &[u8]) -> Result<(u32, &[u8]), Fault> {
    match bytes {
        &[only, ref rest @ ..] if only < MORE => Ok((u32::from(only), rest)),
        _ => decode_long(bytes),
    }
}

/// As `decode`, for a number of more than one byte.
fn decode_long(bytes: &[u8]) -> Result<(u32, &[u8]), Fault> {
    let mut number = 0;
    for (index, &byte) in bytes.iter().take(MOST_BYTES).enumerate() {
        number |= u64::from(byte & !MORE) << (GROUP_BITS * index as u32);
        if byte < MORE {
            let number = u32::try_from(number).map_err(|_| Fault::Form)?;
            return if byte == 0 { Err(Fault::Form) } else { Ok((number, &bytes[index + 1..])) };
        }
    }
    Err(if bytes.len() < MOST_BYTES { Fault::End } else { Fault::Form })
}

/// Puts the number's bytes behind those in the packet.
fn encode(mut number: u32, packet: &mut Vec<u8>) {
    while number >= u32::from(MORE) {
        packet.push(number as u8 | MORE);
        number >>= GROUP_BITS;
    }
    packet.push(number as u8);
}

/// The bytes of all the numbers.
pub fn encode_all(numbers: impl IntoIterator<Item = u32>) -> Vec<u8> {
    let mut packet = Vec::new();
    for number in numbers {
        encode(number, &mut packet);
    }
    packet
}
