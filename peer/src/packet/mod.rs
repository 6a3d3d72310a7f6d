//! The reader of listing packets: the numbers of a packet, or its first fault.
//! `number` has the bytes of one number, `grammar` which numbers come.

pub mod grammar;
pub mod number;

use grammar::{listing, Due, Source, MOST_NUMBERS};
use number::Fault;
use std::ops::RangeInclusive;

pub const PACKET_BYTES: usize = 65_536;

pub const BYTES_END: u8 = 1;
pub const BAD_NUMBER: u8 = 2;
pub const BAD_EDITION: u8 = 3;
pub const OUT_OF_RANGE: u8 = 4;
pub const LEFT_OVER: u8 = 5;
pub const PACKET_TOO_LONG: u8 = 6;

/// 01's number and place.
#[derive(Clone, Copy, Debug, PartialEq, Eq)]
pub struct Refusal {
    pub number: u8,
    pub place: u32,
}

/// The listing's numbers in packet order.
pub fn read(packet: &[u8]) -> Result<Vec<u32>, Refusal> {
    if packet.len() > PACKET_BYTES {
        return Err(Refusal { number: PACKET_TOO_LONG, place: 0 });
    }
    let mut reader = Reader::new(packet);
    listing(&mut reader)?;
    reader.finish()
}

/// The numbers read so far, and the bytes behind them.
pub struct Reader<'a> {
    packet: &'a [u8],
    rest: &'a [u8],
    numbers: Vec<u32>,
}

impl<'a> Reader<'a> {
    pub fn new(packet: &'a [u8]) -> Self {
        // No number is shorter than a byte.
        let room = packet.len().min(MOST_NUMBERS);
        Reader { packet, rest: packet, numbers: Vec::with_capacity(room) }
    }

    fn finish(self) -> Result<Vec<u32>, Refusal> {
        if self.rest.is_empty() {
            Ok(self.numbers)
        } else {
            Err(self.refuse(LEFT_OVER))
        }
    }

    /// The refusal whose place is the next byte.
    fn refuse(&self, number: u8) -> Refusal {
        Refusal { number, place: (self.packet.len() - self.rest.len()) as u32 }
    }

    fn refuse_fault(&self, fault: Fault) -> Refusal {
        match fault {
            Fault::End => Refusal { number: BYTES_END, place: self.packet.len() as u32 },
            Fault::Form => self.refuse(BAD_NUMBER),
        }
    }
}

impl Source for Reader<'_> {
    type Fault = Refusal;

    #[inline]
    fn number(&mut self, due: Due, range: RangeInclusive<u32>) -> Result<u32, Refusal> {
        let (number, rest) = number::decode(self.rest).map_err(|fault| self.refuse_fault(fault))?;
        if !range.contains(&number) {
            return Err(self.refuse(if due == Due::Edition { BAD_EDITION } else { OUT_OF_RANGE }));
        }
        self.rest = rest;
        self.numbers.push(number);
        Ok(number)
    }
}
