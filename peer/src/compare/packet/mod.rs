//! `vans_read` against the second program: the same answer and the same bytes on
//! many packets.

mod tally;

use crate::answer::unpack;
use crate::cases::packet::Case;
use crate::compare::{self, first_difference};
use crate::lent::Lent;
use crate::{proved, read_call};
pub use tally::Tally;

/// What a call answers and leaves in the buffer that it may write.
#[derive(PartialEq)]
pub struct Effect {
    answer: u64,
    numbers: Vec<u8>,
}

impl compare::Case for Case {
    type Effect = Effect;

    fn made(seed: u64, number: u64) -> Self {
        Case::new(seed, number)
    }

    fn by_peer(&self) -> Effect {
        let mut numbers = self.numbers.clone();
        let answer = read_call::read(&self.packet, &mut numbers);
        Effect { answer, numbers }
    }

    fn by_proved(&self, shift: usize) -> Result<Effect, &'static str> {
        let packet = Lent::new(&self.packet, shift);
        let mut numbers = Lent::new(&self.numbers, shift + 1);
        let answer = proved::vans_read(packet.inside(), numbers.inside_mut());
        if !(packet.guards_hold() && numbers.guards_hold()) {
            return Err("wrote outside a buffer");
        }
        if packet.inside() != self.packet {
            return Err("wrote the packet");
        }
        Ok(Effect { answer, numbers: numbers.inside().to_vec() })
    }

    fn report(&self, expected: &Effect, found: &Result<Effect, &'static str>) -> String {
        let difference = match found {
            Err(fault) => fault.to_string(),
            Ok(found) => format!(
                "peer {:?}, vans_read {:?} (number, place, count); first different byte {:?}",
                unpack(expected.answer),
                unpack(found.answer),
                first_difference(&expected.numbers, &found.numbers),
            ),
        };
        format!(
            "{difference}\n buffer of {} bytes\n packet of {} bytes: {:02x?}",
            self.numbers.len(),
            self.packet.len(),
            self.packet,
        )
    }
}
