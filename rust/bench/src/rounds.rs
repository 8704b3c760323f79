//! Timing in rounds: the sides take turns, and each side's best round counts.
use std::time::Instant;

/// Many short rounds: the best ones are not interrupted, on a busy machine too.
const ROUNDS: usize = 250;

/// Nanoseconds a call of the best round, of each side.
pub struct Best {
    pub port: f64,
    pub rust: f64,
}

fn nanoseconds(calls: u32, call: &mut dyn FnMut()) -> f64 {
    let began = Instant::now();
    for _ in 0..calls {
        call();
    }
    began.elapsed().as_nanos() as f64 / f64::from(calls)
}

/// Runs all sides in turn, `calls` calls a round, after one round each that does not count; answers the
/// nanoseconds a call of each side's best round.
pub fn best_of<const SIDES: usize>(calls: u32, mut sides: [&mut dyn FnMut(); SIDES]) -> [f64; SIDES] {
    let mut best = [f64::MAX; SIDES];
    for side in &mut sides {
        nanoseconds(calls, side);
    }
    for _ in 0..ROUNDS {
        for (side, best) in sides.iter_mut().zip(&mut best) {
            *best = best.min(nanoseconds(calls, side));
        }
    }
    best
}

/// The port and its twin, in turn.
pub fn take_turns(calls: u32, port: &mut dyn FnMut(), rust: &mut dyn FnMut()) -> Best {
    let [port, rust] = best_of(calls, [port, rust]);
    Best { port, rust }
}

/// One line: what was timed, both sides, and their ratio.
pub fn report(what: &str, best: &Best) {
    println!(
        "{what}: port {:.1} ns, rust {:.1} ns, ratio {:.2}",
        best.port,
        best.rust,
        best.port / best.rust
    );
}
