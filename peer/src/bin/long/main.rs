//! The tests' comparisons at greater length: `long [PACKETS [CALLS [PAIRS]]]`. So many
//! packets go to the reader, and so many listings to the checker and the eraser; so
//! many desk calls and pairs of starts follow. It ends in a panic where a case
//! differs, which names the case by seed and number.

use peer::compare::{agree, desk, listing, observer, packet, Comparison};
use std::env;
use std::time::Instant;

const PACKETS: u64 = 10_000_000;
const CALLS: u64 = 1_000_000;
const PAIRS: u64 = 1_000_000;

/// How often a comparison says how far it is.
const REPORTS: u64 = 20;

fn main() {
    let mut counts = env::args().skip(1);
    let mut next = |usual| {
        counts.next().map_or(usual, |count| count.parse().expect("a count of cases is a number"))
    };
    let (packets, calls, pairs) = (next(PACKETS), next(CALLS), next(PAIRS));
    compare::<packet::Tally>(packets);
    compare::<listing::Tally>(packets);
    compare::<desk::Tally>(calls);
    compare::<observer::Tally>(pairs);
    println!("no case differs");
}

fn compare<C: Comparison>(cases: u64) {
    let begin = Instant::now();
    let every = cases.div_ceil(REPORTS).max(1);
    agree::<C>(cases, |done| {
        if done.is_multiple_of(every) || done == cases {
            eprintln!("{}: {done} of {cases}, {} s", C::NAME, begin.elapsed().as_secs());
        }
    });
}
