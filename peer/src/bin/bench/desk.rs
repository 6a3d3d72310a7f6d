//! The desk call: K1, where the costs that every call has show, and a larger
//! listing over a heap with some hundred blocks.

use crate::{row, timed};
use peer::answer::unpack;
use peer::bytes::bytes_of;
use peer::cases::desk::layout::{any_rows, behind, Layout};
use peer::cases::listing::programs::{any_program, Style};
use peer::cases::packet::pieces::K1;
use peer::cases::run;
use peer::eraser::erase;
use peer::listing::Listing;
use peer::machine::{self, Status};
use peer::random::{seed, Random};
use peer::run_call::BUDGET;
use peer::{desk_call, proved};
use std::hint::black_box;
use std::ops::Range;

type Call = fn(&[u8], &mut [u8], &mut [u8], &[u8], &mut [u8], u32) -> u64;

const LARGE_ITEMS: usize = 300;
const LARGE_ROWS: usize = 400;
const LARGE_HEAP: Range<u32> = 2_000..6_000;
/// A listing is looked for that acts on so many words and halts.
const LARGE_STEPS: Range<u32> = 100..1_000;

struct Work {
    packet: Vec<u8>,
    /// The length of the code.
    words: usize,
    heap: Vec<u8>,
    blocks: Vec<u8>,
    start: Vec<u8>,
    calls_in_a_round: u32,
}

pub fn rows() {
    let large = (0..).find_map(large).expect("there is such a listing");
    for (name, work) in [("K1", k1()), ("300 items", large)] {
        let name = format!("a desk call of {name}, heap of {} words", work.heap.len() / 4);
        row(&name, || round(&work, proved::vans_desk), || round(&work, desk_call::desk));
    }
}

/// Nanoseconds for a call, over the calls of a round.
fn round(work: &Work, call: Call) -> f64 {
    let Work { packet, blocks, .. } = work;
    let (mut heap, mut regs) = (work.heap.clone(), work.start.clone());
    let mut code = vec![0; 4 * work.words];
    timed(work.calls_in_a_round, || {
        for _ in 0..work.calls_in_a_round {
            heap.copy_from_slice(&work.heap);
            regs.copy_from_slice(&work.start);
            let (code, heap, regs) = black_box((&mut code, &mut heap, &mut regs));
            let answer = call(black_box(packet), code, heap, black_box(blocks), regs, BUDGET);
            let (number, _, _) = unpack(answer);
            assert_eq!(number, Status::Halted as u8);
        }
    })
}

fn k1() -> Work {
    Work {
        packet: K1.to_vec(),
        words: run::K1.len(),
        heap: vec![0; 4 * 16],
        blocks: vec![],
        start: vec![0; 64],
        calls_in_a_round: 10_000,
    }
}

/// The listing of this number and a start for it, if they are as wanted.
fn large(number: u64) -> Option<Work> {
    let mut random = Random::new(seed(), number);
    let style = Style { sink: true, ..Style::of_size(&mut random, LARGE_ITEMS) };
    let draft = any_program(&mut random, style);
    let numbers = draft.numbers();
    let listing = Listing::of(&numbers);
    let first = listing.first()?.types;
    let rows = any_rows(&mut random, &draft.shapes, &first, LARGE_ROWS);
    let heap_words = behind(&draft.shapes, &rows);
    let layout = Layout::new(&draft.shapes, rows);
    let heap = layout.any_heap(&mut random, heap_words as usize);
    let start = layout.any_registers(&mut random, &first);
    let code = erase(listing.items());
    let (status, count) = machine::run(&code, &mut heap.clone(), &mut start.clone(), BUDGET);
    let runs = status == Status::Halted && LARGE_STEPS.contains(&count);
    let large = draft.items.len() == LARGE_ITEMS && LARGE_HEAP.contains(&heap_words);
    (runs && large).then(|| Work {
        packet: draft.packet(),
        words: code.len(),
        heap: bytes_of(&heap),
        blocks: bytes_of(layout.rows.as_flattened()),
        start: bytes_of(&start),
        calls_in_a_round: 100,
    })
}
