//! The checker: an item of a listing that is accepted, the reading of its packet
//! included.

use crate::{row, timed};
use peer::cases::listing::draft::Draft;
use peer::cases::listing::programs::{any_program, Style};
use peer::packet::grammar::ITEMS;
use peer::random::{seed, Random};
use peer::{check_call, proved};
use std::hint::black_box;

type Call = fn(&[u8]) -> u64;

const LISTINGS: u64 = 1_000;
const FEWEST_ITEMS: u32 = 5;
/// Listings below so many items are small.
const SMALL: u32 = 60;
/// Listings of one size.
const LISTINGS_OF_A_SIZE: usize = 40;
/// About as many items are checked in each round.
const ITEMS_IN_A_ROUND: usize = 200_000;

pub fn rows() {
    let (small, large): (Vec<Draft>, Vec<Draft>) =
        (0..LISTINGS).map(any_listing).partition(|draft| draft.items.len() < SMALL as usize);
    listings_row("under 60 items", &small);
    listings_row("60 to 1,024 items", &large);
    for (name, items) in [("100 items", 100), ("300 items", 300), ("1,000 items", 1_000)] {
        let drafts = (0..).map(|number| of_size(number, items));
        let full = drafts.filter(|draft| draft.items.len() == items);
        listings_row(name, &full.take(LISTINGS_OF_A_SIZE).collect::<Vec<Draft>>());
    }
}

/// Half of them small.
fn any_listing(number: u64) -> Draft {
    let mut random = Random::new(seed(), number);
    let items = if random.once_in(2) {
        random.between(FEWEST_ITEMS, SMALL - 1)
    } else {
        random.between(SMALL, ITEMS)
    };
    of_size(number, items as usize)
}

fn of_size(number: u64, items: usize) -> Draft {
    let mut random = Random::new(seed(), number);
    let style = Style { sink: true, ..Style::of_size(&mut random, items) };
    any_program(&mut random, style)
}

fn listings_row(name: &str, drafts: &[Draft]) {
    let packets: Vec<Vec<u8>> = drafts.iter().map(Draft::packet).collect();
    let items: usize = drafts.iter().map(|draft| draft.items.len()).sum();
    let name = format!("an item of {} listings of {name}", drafts.len());
    let round = |call| round(&packets, items, call);
    row(&name, || round(proved::vans_check), || round(check_call::check));
}

/// Nanoseconds for an item, over the calls of a round; there are so many items in all.
fn round(packets: &[Vec<u8>], items: usize, call: Call) -> f64 {
    let turns = ITEMS_IN_A_ROUND.div_ceil(items);
    timed((turns * items) as u32, || {
        for _ in 0..turns {
            for packet in packets {
                assert_eq!(call(black_box(packet)), 0);
            }
        }
    })
}
