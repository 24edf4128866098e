//! Time: a repetition is many rounds of one call on a few boards of one kind, and its figure is the mean of a call.

use std::hint::black_box;
use std::time::Instant;

/// Boards that are taken in turn, since most calls can't be made twice in a row; few enough for the nearest cache.
pub const INSTANCES: usize = 16;
/// An even count, as that of the first rounds is, so that what alternates is at the end as it began.
pub const ROUNDS: u32 = 400;
/// The first rounds, which warm the caches up and are not counted.
const WARM: u32 = 10;

/// One repetition: nanoseconds a call, the timer's own among them. Each call must give
/// `wanted`. What is done before a round and after it is not timed.
pub fn repetition<S>(
    sides: &mut [S],
    wanted: i32,
    before: impl Fn(&mut S),
    call: impl Fn(&mut S, u32) -> i32,
    after: impl Fn(&mut S),
) -> f64 {
    let mut nanoseconds = 0;
    for round in 0..WARM + ROUNDS {
        sides.iter_mut().for_each(&before);
        let mut wrong = 0;
        let began = Instant::now();
        for side in sides.iter_mut() {
            wrong |= call(black_box(side), round) ^ wanted;
        }
        let took = began.elapsed().as_nanos();
        sides.iter_mut().for_each(&after);
        nanoseconds += if round < WARM { 0 } else { took };
        assert_eq!(
            wrong, 0,
            "a call that is timed gives another code than {wanted}"
        );
    }
    nanoseconds as f64 / (ROUNDS as usize * sides.len()) as f64
}

/// The same of a call that leaves a board as it was.
pub fn alone<S>(sides: &mut [S], wanted: i32, call: impl Fn(&mut S, u32) -> i32) -> f64 {
    repetition(sides, wanted, |_| {}, call, |_| {})
}

/// The quartiles of the repetitions.
#[derive(Clone, Copy, Debug)]
pub struct Spread {
    pub lower: f64,
    pub median: f64,
    pub upper: f64,
}

impl Spread {
    pub fn of(mut figures: Vec<f64>) -> Self {
        figures.sort_by(f64::total_cmp);
        // between the two nearest where a quartile falls between them
        let at = |part: f64| {
            let place = part * (figures.len() - 1) as f64;
            let (below, above) = (figures[place as usize], figures[place.ceil() as usize]);
            below + (above - below) * place.fract()
        };
        Self {
            lower: at(0.25),
            median: at(0.5),
            upper: at(0.75),
        }
    }
}
