//! Non-interference of the desk call, on many pairs of runs: no run traps, words
//! outside the blocks keep their values, and where both runs halt, an observer for
//! whom the starts agree finds the same in every block word and in every register
//! that both halting contexts list, at levels at or below his.

mod look;
mod pair;
mod run;

use super::Comparison;
use look::{look, Looked};
use pair::Pair;
use std::fmt;

/// What the pairs reached, so that the comparison cannot become empty unseen.
#[derive(Debug, Default)]
pub struct Tally {
    both_halted: u64,
    parted: u64,
    parted_and_both_halted: u64,
    parted_to_different_halts: u64,
    parted_and_wrote_what_is_seen: u64,
}

impl Tally {
    fn add(&mut self, looked: &Looked) {
        let Looked { parted, both_halted, different_halts, wrote_seen } = *looked;
        self.both_halted += u64::from(both_halted);
        self.parted += u64::from(parted);
        self.parted_and_both_halted += u64::from(parted && both_halted);
        self.parted_to_different_halts += u64::from(parted && different_halts);
        self.parted_and_wrote_what_is_seen += u64::from(parted && wrote_seen);
    }
}

impl Comparison for Tally {
    const NAME: &'static str = "pairs of starts";
    const ENOUGH: u64 = 40_000;

    fn add_case(&mut self, seed: u64, number: u64) -> Result<(), String> {
        let pair = Pair::new(seed, number);
        let looked = look(&pair).map_err(|fault| format!("{fault}\n {pair:x?}"))?;
        self.add(&looked);
        Ok(())
    }

    fn assert_full(&self) {
        for (least, times) in [
            (15_000, self.both_halted),
            (5_000, self.parted),
            (3_000, self.parted_and_both_halted),
            (50, self.parted_to_different_halts),
            (500, self.parted_and_wrote_what_is_seen),
        ] {
            assert!(times >= least, "too few: {self:?}");
        }
    }
}

impl fmt::Display for Tally {
    fn fmt(&self, f: &mut fmt::Formatter) -> fmt::Result {
        write!(f, "{self:?}")
    }
}
