//! `vans_run` against the second program: the same answer and the same bytes on
//! many cases.

mod tally;

use crate::answer::unpack;
use crate::bytes::words_of;
use crate::cases::run::Case;
use crate::compare::{self, first_difference};
use crate::lent::Lent;
use crate::{proved, run_call};
pub use tally::Tally;

/// What a call answers and leaves in the buffers that it may write.
#[derive(PartialEq)]
pub struct Outcome {
    answer: u64,
    heap: Vec<u8>,
    regs: Vec<u8>,
}

impl compare::Case for Case {
    type Effect = Outcome;

    fn made(seed: u64, number: u64) -> Self {
        Case::new(seed, number)
    }

    fn by_peer(&self) -> Outcome {
        let (mut heap, mut regs) = (self.heap.clone(), self.regs.clone());
        let answer = run_call::run(&self.code, &mut heap, &mut regs, self.budget);
        Outcome { answer, heap, regs }
    }

    fn by_proved(&self, shift: usize) -> Result<Outcome, &'static str> {
        let code = Lent::new(&self.code, shift);
        let mut heap = Lent::new(&self.heap, shift + 1);
        let mut regs = Lent::new(&self.regs, shift + 2);
        let (lent_heap, lent_regs) = (heap.inside_mut(), regs.inside_mut());
        let answer = proved::vans_run(code.inside(), lent_heap, lent_regs, self.budget);
        if !(code.guards_hold() && heap.guards_hold() && regs.guards_hold()) {
            return Err("wrote outside a buffer");
        }
        if code.inside() != self.code {
            return Err("wrote the code");
        }
        Ok(Outcome { answer, heap: heap.inside().to_vec(), regs: regs.inside().to_vec() })
    }

    fn report(&self, expected: &Outcome, found: &Result<Outcome, &'static str>) -> String {
        let difference = match found {
            Err(fault) => fault.to_string(),
            Ok(found) => format!(
                "peer {:?}, vans_run {:?} (number, place, count); first different heap byte {:?}\n peer regs {:08x?}\n vans regs {:08x?}",
                unpack(expected.answer),
                unpack(found.answer),
                first_difference(&expected.heap, &found.heap),
                words_of(&expected.regs),
                words_of(&found.regs),
            ),
        };
        format!(
            "{difference}\n start regs {:08x?}, {} bytes\n heap of {} bytes, budget {}\n code of {} bytes: {:08x?}",
            words_of(&self.regs),
            self.regs.len(),
            self.heap.len(),
            self.budget,
            self.code.len(),
            words_of(&self.code),
        )
    }
}
