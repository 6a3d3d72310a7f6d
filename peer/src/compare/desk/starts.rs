//! In which way a start is bad where one place is and nothing else, so that a
//! check without that part would go on to run; and the edges at which starts are good.

use super::marks::Marks;
use crate::bytes::words_of;
use crate::cases::desk::faults::{rows_of, Fault, Places};
use crate::cases::desk::layout::{end, Layout, Row};
use crate::cases::desk::Case;
use crate::desk_call::TABLE_WORDS;
use crate::listing::item::Item;
use crate::listing::types::{fields, Type};
use crate::listing::Listing;
use crate::run_call::HEAP_WORDS;
use std::fmt;

/// Few and many rows may be looked up in different ways.
const MANY_ROWS: usize = 32;

#[derive(Default)]
pub struct Starts {
    several: Marks,
    rows: Marks,
    fields: Marks,
    registers: Marks,
    good: Marks,
}

impl Starts {
    /// The call has this fault and no other, if perhaps at several places.
    pub fn add_bad(&mut self, case: &Case, fault: Fault, places: &Places) {
        let Places { rows, fields, registers, .. } = places;
        self.several.add([
            ("rows", rows.len() > 1),
            ("fields", fields.len() > 1),
            ("registers", registers.len() > 1),
            ("registers, r0 too", registers.len() > 1 && registers[0] == 0),
        ]);
        let listing = Listing::of(&case.numbers);
        let layout = Layout::new(&listing.shapes, rows_of(&case.blocks));
        let (heap, regs) = (words_of(&case.heap), words_of(&case.regs));
        match (fault, &rows[..], &fields[..], &registers[..]) {
            (Fault::BadRow, &[row], _, _) => self.add_row(&listing, &layout.rows, row, heap.len()),
            (Fault::BadField, _, &[address], _) => {
                let mut words = layout.words(heap.len());
                let (_, found) = words.find(|word| word.0 == address).expect("a block's word");
                add_pointer(&mut self.fields, &listing, &layout, heap.len(), found, heap[address]);
            }
            (Fault::BadRegister, _, _, &[index]) => {
                self.registers.add([("r0", index == 0), ("r15", index == 15)]);
                let found = listing.first().expect("accepted").types[index];
                if index > 0 {
                    let marks = &mut self.registers;
                    add_pointer(marks, &listing, &layout, heap.len(), found, regs[index]);
                }
            }
            _ => {}
        }
    }

    fn add_row(&mut self, listing: &Listing, rows: &[Row], place: usize, heap_words: usize) {
        let [base, shape] = rows[place];
        let shapes = listing.shapes.len() as u32;
        let before = place.checked_sub(1).map(|before| rows[before]);
        let last = before.map_or(0, |row| u64::from(row[0]));
        let behind = before.and_then(|row| end(&listing.shapes, row)).unwrap_or(0);
        let (base, heap_words) = (u64::from(base), heap_words as u64);
        let end = end(&listing.shapes, rows[place]);
        let inside = end.is_some_and(|end| end <= heap_words);
        self.rows.add([
            ("no shape, the count", shape == shapes),
            ("no shape, 256 or 65,536 past one", shape > 255 && shape & 0xff < shapes),
            ("as the base before", inside && before.is_some() && base == last),
            ("below the base before", inside && base < last),
            ("one word in the block before", inside && base > last && base + 1 == behind),
            ("one word past the heap", base >= behind && end == Some(heap_words + 1)),
            ("at the heap's end", base >= behind && end.is_some() && base == heap_words),
            ("at 2^32 or past it", base >= behind && end.is_some_and(|end| end >> 32 == 1)),
        ]);
    }

    /// All checks are passed.
    pub fn add_good(&mut self, case: &Case) {
        let listing = Listing::of(&case.numbers);
        let first = listing.first().expect("accepted").types;
        let layout = Layout::new(&listing.shapes, rows_of(&case.blocks));
        let heap = words_of(&case.heap);
        let rows = &layout.rows;
        let ends: Vec<u64> = rows.iter().filter_map(|&row| end(&listing.shapes, row)).collect();
        let touch = |(end, row): (&u64, &Row)| *end == u64::from(row[0]);
        let to_itself = |&[base, shape]: &Row| {
            let block = fields(&listing.shapes[shape as usize]).iter().zip(base..);
            block.into_iter().any(|(field, at)| field.is_pointer() && heap[at as usize] == base)
        };
        let is_16 = |row: &Row| fields(&listing.shapes[row[1] as usize]).len() == 16;
        self.good.add([
            ("no rows", rows.is_empty()),
            ("many rows", rows.len() >= MANY_ROWS),
            ("a full table", rows.len() == TABLE_WORDS / 2),
            ("an empty heap", heap.is_empty()),
            ("a full heap", heap.len() == HEAP_WORDS),
            ("a block at 0", rows.first().is_some_and(|row| row[0] == 0)),
            ("blocks that touch", ends.iter().zip(rows.iter().skip(1)).any(touch)),
            ("a block that ends the heap", ends.last() == Some(&(heap.len() as u64))),
            ("a block of 16 fields", rows.iter().any(is_16)),
            ("a block that points to itself", rows.iter().any(to_itself)),
            ("a first label that is not 0", listing.items().next() != Some(Item::Label(0))),
            ("r15 a pointer", first[15].is_pointer()),
            ("nothing listed", first[1..].iter().all(|found| !found.is_some())),
        ]);
    }

    pub fn assert_full(&self) {
        self.several.assert_full(4, 200);
        self.rows.assert_full(8, 30);
        self.fields.assert_full(7, 15);
        self.registers.assert_full(9, 15);
        self.good.assert_full(13, 100);
    }
}

/// A pointer that is not good, and where it points instead.
fn add_pointer(
    marks: &mut Marks,
    listing: &Listing,
    layout: &Layout,
    heap_words: usize,
    pointer: Type,
    word: u32,
) {
    let others = layout.rows.iter().any(|row| row[0] == word);
    let own_shape = |row: &&Row| pointer.shape() == Some(row[1] as usize);
    let mut own = layout.rows.iter().filter(own_shape);
    let in_own = own.any(|&row| {
        row[0] < word && end(&listing.shapes, row).is_some_and(|end| u64::from(word) < end)
    });
    let in_heap = (word as usize) < heap_words;
    marks.add([
        ("a block of another shape", others),
        ("into a block of its shape", in_own),
        ("elsewhere in the heap", in_heap && !others && !in_own),
        ("past the heap", !in_heap),
        ("2^16 or 2^31 past a base", !in_heap && layout.allows(pointer, word & 0x7ffe_ffff)),
        ("a block of another shape, of many", others && layout.rows.len() >= MANY_ROWS),
        ("into a block of its shape, of many", in_own && layout.rows.len() >= MANY_ROWS),
    ]);
}

impl fmt::Display for Starts {
    fn fmt(&self, f: &mut fmt::Formatter) -> fmt::Result {
        writeln!(f, "several at once: {}", self.several)?;
        writeln!(f, "one bad row alone: {}", self.rows)?;
        writeln!(f, "one bad field alone: {}", self.fields)?;
        writeln!(f, "one bad register alone: {}", self.registers)?;
        write!(f, "good starts: {}", self.good)
    }
}
