//! Times the proved calls and the peer's side by side: the best of several
//! alternating rounds of each, and their ratio.

mod check;
mod desk;
mod read;
mod run;

use peer::proved;
use std::time::Instant;

const ROUNDS: u32 = 30;

fn main() {
    if !proved::LINKED {
        println!(
            "The proved library runs under an emulator here, where times say nothing: no figures."
        );
        return;
    }
    println!("{:<48}{:>10}{:>10}{:>8}", "best, in nanoseconds", "proved", "peer", "ratio");
    run::rows();
    read::rows();
    check::rows();
    desk::rows();
}

/// Measures and prints a row of the table.
fn row(name: &str, mut proved_round: impl FnMut() -> f64, mut peer_round: impl FnMut() -> f64) {
    let (mut proved, mut peer) = (f64::INFINITY, f64::INFINITY);
    for _ in 0..ROUNDS {
        proved = proved.min(proved_round());
        peer = peer.min(peer_round());
    }
    println!("{name:<48}{proved:>10.2}{peer:>10.2}{:>8.2}", proved / peer);
}

/// Nanoseconds that the work takes for each of its parts.
fn timed(parts: u32, work: impl FnOnce()) -> f64 {
    let begin = Instant::now();
    work();
    begin.elapsed().as_nanos() as f64 / f64::from(parts)
}
