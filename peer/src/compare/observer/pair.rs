//! An accepted listing, an observer, and two starts over one block table that agree
//! for him: what he may see is equal, and all else is chosen anew.

use crate::cases::desk::layout::{any_rows, behind, Layout, Row};
use crate::cases::desk::programs;
use crate::cases::listing::draft::Draft;
use crate::cases::listing::programs::Style;
use crate::listing::item::Item;
use crate::listing::types::{at_or_below, Type, Types};
use crate::listing::Listing;
use crate::random::Random;

#[derive(Debug)]
pub struct Pair {
    pub draft: Draft,
    pub rows: Vec<Row>,
    /// The observer's level.
    pub level: u8,
    pub starts: [Start; 2],
}

#[derive(Debug)]
pub struct Start {
    pub heap: Vec<u32>,
    pub regs: [u32; 16],
    pub budget: u32,
}

impl Pair {
    pub fn new(seed: u64, number: u64) -> Self {
        let mut random = Random::new(seed, number);
        let draft = programs::any_over_heap(&mut random, any_style, branches_on_secrets);
        let first = Listing::of(&draft.numbers()).first().expect("accepted").types;
        let level = any_level(&mut random, &draft, &first);
        let rows = any_rows(&mut random, &draft.shapes, &first, 0);
        let least = behind(&draft.shapes, &rows);
        let layout = Layout::new(&draft.shapes, rows);
        let mut starts = [0; 2].map(|_| any_start(&mut random, &layout, &first, least));
        let [one, other] = &mut starts;
        for (address, found) in layout.words(one.heap.len()) {
            if sees(level, found) {
                other.heap[address] = one.heap[address];
            }
        }
        for (index, &found) in first.iter().enumerate() {
            if sees(level, found) {
                other.regs[index] = one.regs[index];
            }
        }
        Pair { rows: layout.rows, draft, level, starts }
    }
}

/// Many branches, and two of three without loops, so that runs part and still halt.
fn any_style(random: &mut Random, items: usize) -> Style {
    let style = Style::of_size(random, items);
    let (structured, nested) = (random.pick(&[4, 6, 9]), random.once_in(12));
    let labels = style.labels.max(12);
    Style { labels, structured, nested, loops: random.once_in(3), ..style }
}

/// Whether some bnz reads a register above level 0, so that runs can part.
fn branches_on_secrets(draft: &Draft) -> bool {
    draft.items.iter().zip(draft.walks()).any(|(item, walk)| match *item {
        Item::Bnz { rs, .. } => walk.now.types[usize::from(rs)].level() > 0,
        _ => false,
    })
}

/// Whether what has this type is to be seen at a level.
pub fn sees(level: u8, found: Type) -> bool {
    found.is_some() && at_or_below(found.level(), level)
}

/// One of the levels that occur, or any.
fn any_level(random: &mut Random, draft: &Draft, first: &Types) -> u8 {
    let types = draft.shapes.iter().flatten().chain(first).filter(|found| found.is_some());
    let levels: Vec<u8> = types.map(|found| found.level()).collect();
    match random.below(8) {
        0..=2 => 0,
        3 => random.word() as u8,
        _ => random.pick(&levels),
    }
}

/// In a heap of so many words or a few more.
fn any_start(random: &mut Random, layout: &Layout, first: &Types, least: u32) -> Start {
    let heap_words = least + random.below(10);
    Start {
        heap: layout.any_heap(random, heap_words as usize),
        regs: layout.any_registers(random, first),
        budget: random.pick(&[20, 200, 2_000, 5_000, 5_000]),
    }
}
