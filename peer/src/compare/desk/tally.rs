//! What the cases reached, so that the comparison cannot become empty unseen.

use super::marks::Marks;
use super::runs::Runs;
use super::starts::Starts;
use crate::answer::unpack;
use crate::cases::desk::faults::{faults, Fault, Places, FAULTS};
use crate::cases::desk::Case;
use crate::compare::{agreed_case, assert_often, Comparison};
use crate::desk_call::TABLE_WORDS;
use crate::run_call::{BUDGET, HEAP_WORDS};
use std::collections::BTreeMap;
use std::fmt;

#[derive(Default)]
pub struct Tally {
    calls: u64,
    answers: BTreeMap<u8, u64>,
    alone: BTreeMap<Fault, u64>,
    /// Two faults of one call, in 01's order.
    pairs: BTreeMap<(Fault, Fault), u64>,
    edges: Marks,
    starts: Starts,
    runs: Runs,
}

impl Tally {
    fn add(&mut self, case: &Case, answer: u64) {
        let (faults, places) = faults(case);
        assert_first(&faults, &places, answer);
        self.calls += 1;
        *self.answers.entry(unpack(answer).0).or_default() += 1;
        for (index, &first) in faults.iter().enumerate() {
            for &second in &faults[index + 1..] {
                *self.pairs.entry((first, second)).or_default() += 1;
            }
        }
        match faults[..] {
            [] => {
                self.starts.add_good(case);
                self.runs.add(case, answer);
            }
            [only] => {
                *self.alone.entry(only).or_default() += 1;
                self.add_edge(case, only, &places);
                self.starts.add_bad(case, only, &places);
            }
            _ => {}
        }
    }

    /// Lengths and budgets next to those that are taken.
    fn add_edge(&mut self, case: &Case, fault: Fault, places: &Places) {
        match fault {
            Fault::CodeShort => self.edges.add([
                ("no code buffer", case.code.is_empty()),
                ("code buffer short by a word", case.code.len() + 4 == 4 * places.words),
            ]),
            Fault::HeapLong => {
                self.edges.add([("heap long by a word", case.heap.len() == 4 * (HEAP_WORDS + 1))]);
            }
            Fault::TableLong => {
                let row_more = case.blocks.len() == 4 * (TABLE_WORDS + 2);
                self.edges.add([("block table long by a row", row_more)]);
            }
            Fault::BudgetLarge => {
                self.edges.add([("budget large by 1", case.budget == BUDGET + 1)]);
            }
            _ => {}
        }
    }
}

impl Comparison for Tally {
    const NAME: &'static str = "vans_desk";
    const ENOUGH: u64 = 120_000;

    fn add_case(&mut self, seed: u64, number: u64) -> Result<(), String> {
        let (case, effect) = agreed_case::<Case>(seed, number)?;
        self.add(&case, effect.answer);
        Ok(())
    }

    fn assert_full(&self) {
        assert_often(&self.answers, (1..=6).chain(30..=35), 200);
        assert_often(&self.alone, FAULTS, 200);
        for (index, first) in FAULTS.into_iter().enumerate() {
            let later = FAULTS[index + 1..].iter();
            assert_often(&self.pairs, later.map(|&second| (first, second)), 300);
        }
        self.edges.assert_full(5, 40);
        self.starts.assert_full();
        self.runs.assert_full(self.calls);
    }
}

/// The answer is the first fault's, at its first place; a start without one runs.
fn assert_first(faults: &[Fault], places: &Places, answer: u64) {
    let (number, place, _) = unpack(answer);
    let place = place as usize;
    let holds = match faults.first() {
        None => place == 0 && [0, 43].contains(&number),
        Some(Fault::Packet) => (1..=6).contains(&number),
        Some(Fault::Items) => (10..=23).contains(&number),
        Some(Fault::CodeShort) => (number, place) == (35, places.words),
        Some(Fault::BudgetLarge) => (number, place) == (34, 0),
        Some(Fault::BadRow) => (number, place) == (31, places.rows[0]),
        Some(Fault::BadField) => (number, place) == (32, places.fields[0]),
        Some(Fault::BadRegister) => (number, place) == (33, places.registers[0]),
        Some(_) => (number, place) == (30, 0),
    };
    assert!(holds, "{number} at {place} for {faults:?}");
}

impl fmt::Display for Tally {
    fn fmt(&self, f: &mut fmt::Formatter) -> fmt::Result {
        writeln!(f, "calls by answer: {:?}", self.answers)?;
        writeln!(f, "one fault alone: {:?}", self.alone)?;
        let seldom = self.pairs.iter().min_by_key(|(_, &times)| times);
        writeln!(f, "pairs of faults: {} kinds, seldomest {seldom:?}", self.pairs.len())?;
        writeln!(f, "edges of what is refused: {}", self.edges)?;
        writeln!(f, "{}", self.starts)?;
        write!(f, "{}", self.runs)
    }
}
