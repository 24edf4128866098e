//! Phase chains: random scripts from the fresh state of random boards.

use crate::board_maker;
use crate::comparer::{Comparer, Going};
use crate::generate;
use crate::moods::{self, Mood};
use crate::random::Random;

/// Until there are `end` events in all.
pub fn run(comparer: &mut Comparer, end: u64) -> Going<()> {
    comparer.phase("chains");
    let random = &mut Random::new(comparer.seed, 2);
    let (before, mut chains) = (comparer.events, 0);
    while comparer.events < end {
        let Some((mut oracle, mut image)) = comparer.start(&board_maker::acceptable(random))?
        else {
            continue;
        };
        let mut mood = Mood::any(random);
        for _ in 0..random.within(50, 200) {
            if random.chance(5) {
                mood = Mood::any(random);
            }
            let record = generate::event(random, &image, mood);
            comparer.event(&mut oracle, &mut image, &record)?;
            if moods::is_over(&image) && random.chance(50) {
                break;
            }
        }
        chains += 1;
    }
    let events = comparer.events - before;
    comparer.say(format!(
        "chains: {chains} scripts from fresh, {events} events"
    ));
    Ok(())
}
