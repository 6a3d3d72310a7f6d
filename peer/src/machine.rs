//! The untyped machine of 01, "Erased code and the machine".

use crate::word::*;

/// Why a run stopped, with 01's numbers.
#[derive(Clone, Copy, Debug, PartialEq, Eq)]
pub enum Status {
    Halted = 0,
    OutsideCode = 40,
    BadWord = 41,
    OutsideHeap = 42,
    BudgetUsed = 43,
}

/// A running state. `regs[0]` is always 0, so that reads need not ask.
pub struct Machine {
    regs: [u32; 16],
    pc: usize,
}

impl Machine {
    /// The first state of a run; what the start has in r0 is not seen.
    pub fn new(start: &[u32; 16]) -> Self {
        let mut regs = *start;
        regs[0] = 0;
        Machine { regs, pc: 0 }
    }

    pub fn pc(&self) -> usize {
        self.pc
    }

    /// One step; an error is the status in which the machine stops. As a call of its
    /// own it would take half as long again.
    #[inline(always)]
    pub fn step(&mut self, code: &[u32], heap: &mut [u32]) -> Result<(), Status> {
        let &word = code.get(self.pc).ok_or(Status::OutsideCode)?;
        match opcode(word) {
            HALT => halt(word),
            JMP => self.jmp(word),
            BNZ => self.bnz(word),
            LOAD => self.load(word, heap),
            STORE => self.store(word, heap),
            ADD => self.with_register(word, u32::wrapping_add),
            SUB => self.with_register(word, u32::wrapping_sub),
            AND => self.with_register(word, |a, b| a & b),
            XOR => self.with_register(word, |a, b| a ^ b),
            SLT => self.with_register(word, slt),
            ADD_IMMEDIATE => self.with_immediate(word, u32::wrapping_add),
            SUB_IMMEDIATE => self.with_immediate(word, u32::wrapping_sub),
            AND_IMMEDIATE => self.with_immediate(word, |a, b| a & b),
            XOR_IMMEDIATE => self.with_immediate(word, |a, b| a ^ b),
            SLT_IMMEDIATE => self.with_immediate(word, slt),
            _ => Err(Status::BadWord),
        }
    }

    fn go(&mut self, code: &[u32], heap: &mut [u32], budget: u32) -> (Status, u32) {
        for acted in 0..budget {
            match self.step(code, heap) {
                Ok(()) => {}
                Err(Status::Halted) => return (Status::Halted, acted + 1),
                Err(trap) => return (trap, acted),
            }
        }
        (Status::BudgetUsed, budget)
    }

    #[inline]
    fn jmp(&mut self, word: u32) -> Result<(), Status> {
        zero(word, RD | RS | RT)?;
        self.pc = low(word) as usize;
        Ok(())
    }

    #[inline]
    fn bnz(&mut self, word: u32) -> Result<(), Status> {
        zero(word, RD | RT)?;
        if self.regs[rs(word)] != 0 {
            self.pc = low(word) as usize;
        } else {
            self.pc += 1;
        }
        Ok(())
    }

    #[inline]
    fn load(&mut self, word: u32, heap: &[u32]) -> Result<(), Status> {
        zero(word, RT)?;
        let address = self.address(rs(word), word);
        let value = *heap.get(address).ok_or(Status::OutsideHeap)?;
        self.put(rd(word), value);
        Ok(())
    }

    #[inline]
    fn store(&mut self, word: u32, heap: &mut [u32]) -> Result<(), Status> {
        zero(word, RT)?;
        let address = self.address(rd(word), word);
        *heap.get_mut(address).ok_or(Status::OutsideHeap)? = self.regs[rs(word)];
        self.pc += 1;
        Ok(())
    }

    #[inline]
    fn with_register(&mut self, word: u32, op: impl Fn(u32, u32) -> u32) -> Result<(), Status> {
        zero(word, LOW)?;
        self.put(rd(word), op(self.regs[rs(word)], self.regs[rt(word)]));
        Ok(())
    }

    #[inline]
    fn with_immediate(&mut self, word: u32, op: impl Fn(u32, u32) -> u32) -> Result<(), Status> {
        zero(word, RT)?;
        self.put(rd(word), op(self.regs[rs(word)], immediate(word)));
        Ok(())
    }

    /// Register plus offset as a whole number. A sum that a `usize` cannot hold
    /// is past every heap's end, and so is the greatest `usize`.
    #[inline]
    fn address(&self, base: usize, word: u32) -> usize {
        (self.regs[base] as usize).saturating_add(low(word) as usize)
    }

    /// Writes rd and goes on to the next word; a write to r0 has no effect.
    #[inline]
    fn put(&mut self, rd: usize, value: u32) {
        self.regs[rd] = value;
        self.regs[0] = 0;
        self.pc += 1;
    }
}

fn halt(word: u32) -> Result<(), Status> {
    zero(word, RD | RS | RT | LOW)?;
    Err(Status::Halted)
}

/// Traps unless the named parts of the word are zero.
#[inline]
fn zero(word: u32, unused: u32) -> Result<(), Status> {
    if word & unused == 0 {
        Ok(())
    } else {
        Err(Status::BadWord)
    }
}

fn slt(a: u32, b: u32) -> u32 {
    u32::from((a as i32) < (b as i32))
}

/// Runs from pc 0; the count is the words acted on, a halt included and a
/// trapping word not. r0 keeps what the start held.
pub fn run(code: &[u32], heap: &mut [u32], regs: &mut [u32; 16], budget: u32) -> (Status, u32) {
    let mut machine = Machine::new(regs);
    let answer = machine.go(code, heap, budget);
    regs[1..].copy_from_slice(&machine.regs[1..]);
    answer
}

/// Where a run goes: the places of the words it acts on, in order.
pub fn path(code: &[u32], heap: &mut [u32], regs: &[u32; 16], budget: u32) -> Vec<usize> {
    let mut machine = Machine::new(regs);
    let mut path = vec![];
    for _ in 0..budget {
        let pc = machine.pc();
        match machine.step(code, heap) {
            Ok(()) => path.push(pc),
            Err(Status::Halted) => {
                path.push(pc);
                break;
            }
            Err(_) => break,
        }
    }
    path
}
