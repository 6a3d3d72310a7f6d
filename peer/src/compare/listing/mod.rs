//! `vans_check` and `vans_erase` against the second program: the same answers and
//! the same bytes on many listings.

mod parts;
mod refusals;
mod tally;

use crate::answer::unpack;
use crate::cases::listing::Case;
use crate::compare::{self, first_difference};
use crate::lent::Lent;
use crate::{check_call, erase_call, proved};
pub use tally::Tally;

/// What the calls answer and leave in the buffer that one of them may write.
#[derive(PartialEq)]
pub struct Effect {
    check: u64,
    erase: u64,
    code: Vec<u8>,
}

impl compare::Case for Case {
    type Effect = Effect;

    fn made(seed: u64, number: u64) -> Self {
        Case::new(seed, number)
    }

    fn by_peer(&self) -> Effect {
        let check = check_call::check(&self.packet);
        let mut code = self.code.clone();
        let erase = erase_call::erase(&self.packet, &mut code);
        Effect { check, erase, code }
    }

    fn by_proved(&self, shift: usize) -> Result<Effect, &'static str> {
        let packet = Lent::new(&self.packet, shift);
        let mut code = Lent::new(&self.code, shift + 1);
        let check = proved::vans_check(packet.inside());
        let erase = proved::vans_erase(packet.inside(), code.inside_mut());
        if !(packet.guards_hold() && code.guards_hold()) {
            return Err("wrote outside a buffer");
        }
        if packet.inside() != self.packet {
            return Err("wrote the packet");
        }
        Ok(Effect { check, erase, code: code.inside().to_vec() })
    }

    fn report(&self, expected: &Effect, found: &Result<Effect, &'static str>) -> String {
        let difference = match found {
            Err(fault) => fault.to_string(),
            Ok(found) => format!(
                "check: peer {:?}, vans_check {:?}; erase: peer {:?}, vans_erase {:?} (number, place, count); first different byte {:?}",
                unpack(expected.check),
                unpack(found.check),
                unpack(expected.erase),
                unpack(found.erase),
                first_difference(&expected.code, &found.code),
            ),
        };
        format!(
            "{difference}\n buffer of {} bytes\n packet of {} bytes: {:02x?}",
            self.code.len(),
            self.packet.len(),
            self.packet,
        )
    }
}
