// Time, as the least of many turns: what disturbs a turn only makes it longer.
use std::time::Instant;

const TURNS: usize = 40;

/// The least seconds that a turn takes.
pub fn least(mut turn: impl FnMut()) -> f64 {
    (0..TURNS)
        .map(|_| {
            let start = Instant::now();
            turn();
            start.elapsed().as_secs_f64()
        })
        .fold(f64::MAX, f64::min)
}

/// The first turn's time as a part of the second's, both least, turn by turn in one run.
pub fn ratio(mut one: impl FnMut(), mut other: impl FnMut()) -> f64 {
    let (mut a, mut b) = (f64::MAX, f64::MAX);
    for _ in 0..TURNS {
        let start = Instant::now();
        one();
        let middle = Instant::now();
        other();
        a = a.min((middle - start).as_secs_f64());
        b = b.min(middle.elapsed().as_secs_f64());
    }
    a / b
}
