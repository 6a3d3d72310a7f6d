//! Lengths of buffers, budgets, and packets with faults in their bytes.

use super::faults::Fault;
use crate::bytes::bytes_of;
use crate::desk_call::TABLE_WORDS;
use crate::machine::Status;
use crate::packet::grammar::SHAPES;
use crate::packet::PACKET_BYTES;
use crate::random::Random;
use crate::run_call::{BUDGET, CODE_WORDS, HEAP_WORDS, REGISTER_BYTES};

/// Steps after which a run is taken for an endless one.
pub const LOOKED_AT: u32 = 2_000;
const FULL_TABLE: usize = TABLE_WORDS / 2;

/// The listing's packet, or one with a fault.
pub fn packet(random: &mut Random, plan: &[Fault], mut packet: Vec<u8>) -> Vec<u8> {
    if !plan.contains(&Fault::Packet) {
        return packet;
    }
    let last = packet.len() - 1;
    match random.below(16) {
        0..=5 => packet.extend(random.bytes(1 + last % 3)),
        6..=8 => packet.truncate(random.below(last as u32 + 1) as usize),
        9 | 10 => {
            packet[last] |= 0x80;
            packet.push(0);
        }
        11 | 12 => packet[0] = random.pick(&[0, 2, 127]),
        13 | 14 => packet[1] = random.between(SHAPES + 1, 127) as u8,
        _ => packet.resize(random.pick(&[PACKET_BYTES + 1, 2 * PACKET_BYTES]), 0),
    }
    packet
}

/// A buffer for so many code words: exact, longer, ragged, or too short by as
/// little as a byte.
pub fn code(random: &mut Random, plan: &[Fault], words: usize) -> Vec<u8> {
    let exact = 4 * words;
    let length = if plan.contains(&Fault::CodeShort) {
        let any = 4 * random.below(words.max(1) as u32) as usize;
        let rag = random.between(1, 3) as usize;
        random.pick(&[
            0,
            any,
            exact.saturating_sub(4),
            exact.saturating_sub(4),
            exact.saturating_sub(rag),
        ])
    } else {
        let more = random.between(1, 20) as usize;
        exact + 4 * random.pick(&[0, 0, 0, 1, more, CODE_WORDS])
    };
    let contents = random.bytes(length);
    ragged(random, plan.contains(&Fault::CodeRagged), contents)
}

/// How long a heap is whose blocks end here: just so long, a little longer, as long
/// as heaps may be, or too long.
pub fn heap_words(random: &mut Random, plan: &[Fault], behind: u32) -> u32 {
    let full = HEAP_WORDS as u32;
    if plan.contains(&Fault::HeapLong) {
        return random.pick(&[full + 1, full + 1, full + 2, 2 * full]);
    }
    match random.below(120) {
        0 => full,
        1 => full - 1,
        2 => random.between(behind, full),
        3..=60 => behind,
        61..=80 => behind + 1,
        _ => behind + random.below(40),
    }
}

pub fn heap(random: &mut Random, plan: &[Fault], words: &[u32]) -> Vec<u8> {
    ragged(random, plan.contains(&Fault::HeapRagged), bytes_of(words))
}

/// How many rows a block table has at least.
pub fn least_rows(random: &mut Random, plan: &[Fault]) -> usize {
    if plan.contains(&Fault::TableLong) {
        FULL_TABLE + random.between(1, 3) as usize
    } else if random.once_in(200) {
        FULL_TABLE - random.below(2) as usize
    } else {
        0
    }
}

/// A table that is to be too long becomes so too where there are no shapes.
pub fn blocks(random: &mut Random, plan: &[Fault], rows: &[u32]) -> Vec<u8> {
    let mut words = rows.to_vec();
    if plan.contains(&Fault::TableLong) {
        words.resize(words.len().max(TABLE_WORDS + 2), 0);
    }
    if plan.contains(&Fault::TableOdd) {
        words.push(random.below(50));
    }
    ragged(random, plan.contains(&Fault::TableRagged), bytes_of(&words))
}

pub fn registers(random: &mut Random, plan: &[Fault], mut regs: Vec<u8>) -> Vec<u8> {
    if plan.contains(&Fault::RegistersLength) {
        regs.resize(random.pick(&[0, 60, 63, 65, 66, 67, 68, 2 * REGISTER_BYTES]), 0xa5);
    }
    regs
}

/// With up to three bytes that are no word.
fn ragged(random: &mut Random, wanted: bool, mut bytes: Vec<u8>) -> Vec<u8> {
    if wanted {
        let rag = random.between(1, 3) as usize;
        bytes.extend(random.bytes(rag));
    }
    bytes
}

pub fn budget(random: &mut Random, plan: &[Fault]) -> u32 {
    if plan.contains(&Fault::BudgetLarge) {
        random.pick(&[BUDGET + 1, BUDGET + 1, 2 * BUDGET, u32::MAX])
    } else {
        random.pick(&[0, 1, 50, BUDGET - 1, BUDGET])
    }
}

/// A budget for a run that was looked at: none, just what it needs, one less, any, or
/// the most, which an endless run seldom gets.
pub fn run_budget(random: &mut Random, status: Status, count: u32) -> u32 {
    let most = if status == Status::Halted { BUDGET } else { LOOKED_AT };
    match random.below(20) {
        0 => 0,
        1..=6 => count,
        7 | 8 => count - 1,
        9..=11 => random.below(count + 1),
        12 => random.below(LOOKED_AT),
        _ if random.once_in(1_000) => BUDGET,
        _ => random.pick(&[most, most - 1]),
    }
}
