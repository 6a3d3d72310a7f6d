//! `vans_desk` against the second program: the same answer and the same bytes on
//! many cases.

mod marks;
mod runs;
mod starts;
mod tally;

use crate::answer::unpack;
use crate::bytes::words_of;
use crate::cases::desk::Case;
use crate::compare::{self, first_difference};
use crate::lent::Lent;
use crate::{desk_call, proved};
pub use tally::Tally;

/// What a call answers and leaves in the buffers that it may write.
#[derive(PartialEq)]
pub struct Effect {
    answer: u64,
    code: Vec<u8>,
    heap: Vec<u8>,
    regs: Vec<u8>,
}

impl compare::Case for Case {
    type Effect = Effect;

    fn made(seed: u64, number: u64) -> Self {
        Case::new(seed, number)
    }

    fn by_peer(&self) -> Effect {
        let [mut code, mut heap, mut regs] = [&self.code, &self.heap, &self.regs].map(Vec::clone);
        let Case { packet, blocks, budget, .. } = self;
        let answer = desk_call::desk(packet, &mut code, &mut heap, blocks, &mut regs, *budget);
        Effect { answer, code, heap, regs }
    }

    fn by_proved(&self, shift: usize) -> Result<Effect, &'static str> {
        let packet = Lent::new(&self.packet, shift);
        let mut code = Lent::new(&self.code, shift + 1);
        let mut heap = Lent::new(&self.heap, shift + 2);
        let blocks = Lent::new(&self.blocks, shift + 3);
        let mut regs = Lent::new(&self.regs, shift);
        let answer = proved::vans_desk(
            packet.inside(),
            code.inside_mut(),
            heap.inside_mut(),
            blocks.inside(),
            regs.inside_mut(),
            self.budget,
        );
        if ![&packet, &code, &heap, &blocks, &regs].into_iter().all(Lent::guards_hold) {
            return Err("wrote outside a buffer");
        }
        if packet.inside() != self.packet || blocks.inside() != self.blocks {
            return Err("wrote the packet or the block table");
        }
        let [code, heap, regs] = [code, heap, regs].map(|lent| lent.inside().to_vec());
        Ok(Effect { answer, code, heap, regs })
    }

    fn report(&self, expected: &Effect, found: &Result<Effect, &'static str>) -> String {
        let difference = match found {
            Err(fault) => fault.to_string(),
            Ok(found) => format!(
                "peer {:?}, vans_desk {:?} (number, place, count); first different byte of code {:?}, of heap {:?}\n peer regs {:08x?}\n vans regs {:08x?}",
                unpack(expected.answer),
                unpack(found.answer),
                first_difference(&expected.code, &found.code),
                first_difference(&expected.heap, &found.heap),
                words_of(&expected.regs),
                words_of(&found.regs),
            ),
        };
        format!(
            "{difference}\n start regs {:08x?}, {} bytes\n code of {} bytes, heap of {} bytes, budget {}\n block table of {} bytes: {:x?}\n packet of {} bytes: {:02x?}",
            words_of(&self.regs),
            self.regs.len(),
            self.code.len(),
            self.heap.len(),
            self.budget,
            self.blocks.len(),
            words_of(&self.blocks),
            self.packet.len(),
            self.packet,
        )
    }
}
