//! What an observer finds after the runs of a pair.

use super::pair::{sees, Pair, Start};
use super::run::Run;
use crate::cases::desk::layout::Layout;
use crate::listing::types::Types;
use std::collections::BTreeSet;

/// How the runs of a pair went, of which he finds nothing.
pub struct Looked {
    /// They went different ways at a step that both took.
    pub parted: bool,
    pub both_halted: bool,
    pub different_halts: bool,
    /// They halted, and something that he sees is not as it was.
    pub wrote_seen: bool,
}

/// The error says what a run did that it must not do, or what the observer finds.
pub fn look(pair: &Pair) -> Result<Looked, String> {
    let packet = pair.draft.packet();
    let lists = lists(pair);
    let layout = Layout::new(&pair.draft.shapes, pair.rows.clone());
    let [one, other] =
        pair.starts.each_ref().map(|start| Run::of(&packet, lists.len(), &layout.rows, start));
    let (one, other) = (one?, other?);
    keeps_outside(&layout, &pair.starts[0], &one)?;
    keeps_outside(&layout, &pair.starts[1], &other)?;
    let mut looked = Looked {
        parted: one.path.iter().zip(&other.path).any(|(one, other)| one != other),
        both_halted: one.halted && other.halted,
        different_halts: false,
        wrote_seen: false,
    };
    if looked.both_halted {
        let halts = [&one, &other].map(|run| run.path[run.path.len() - 1]);
        looked.different_halts = halts[0] != halts[1];
        let seen = Seen::new(pair.level, &layout, halts.map(|halt| &lists[halt]));
        if let Some(difference) = seen.difference(&one, &other.heap, &other.regs) {
            return Err(format!("the observer at {:02x} finds another {difference}", pair.level));
        }
        let start = &pair.starts[0];
        looked.wrote_seen = seen.difference(&one, &start.heap, &start.regs).is_some();
    }
    Ok(looked)
}

/// What is listed before each item that is kept, by its address.
fn lists(pair: &Pair) -> Vec<Types> {
    let walks = pair.draft.walks();
    let items = pair.draft.items.iter().zip(&walks).filter(|(item, _)| item.is_kept());
    items.map(|(_, walk)| walk.now.types).collect()
}

fn keeps_outside(layout: &Layout, start: &Start, run: &Run) -> Result<(), String> {
    let words = start.heap.len();
    let inside: BTreeSet<usize> = layout.words(words).map(|(address, _)| address).collect();
    let mut outside = (0..words).filter(|address| !inside.contains(address));
    match outside.find(|&address| run.heap[address] != start.heap[address]) {
        Some(address) => Err(format!("wrote at {address}, outside the blocks")),
        None => Ok(()),
    }
}

/// The addresses and registers that are an observer's to see after two halts.
struct Seen {
    addresses: Vec<usize>,
    registers: Vec<usize>,
}

impl Seen {
    /// A register counts where both halting contexts list it so.
    fn new(level: u8, layout: &Layout, lists: [&Types; 2]) -> Self {
        let words = layout.words(usize::MAX).filter(|&(_, found)| sees(level, found));
        let both = |&index: &usize| lists.iter().all(|list| sees(level, list[index]));
        Seen {
            addresses: words.map(|(address, _)| address).collect(),
            registers: (0..16).filter(both).collect(),
        }
    }

    /// The first of them that a run has left with another value than this.
    fn difference(&self, run: &Run, heap: &[u32], regs: &[u32]) -> Option<String> {
        let address = self.addresses.iter().find(|&&address| run.heap[address] != heap[address]);
        let register = self.registers.iter().find(|&&index| run.regs[index] != regs[index]);
        let address = address.map(|address| format!("word at {address}"));
        address.or_else(|| register.map(|index| format!("r{index}")))
    }
}
