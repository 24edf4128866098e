//! Records of domains on states that are not sound.

use super::make::board;
use crate::layout::*;
use crate::oracle::*;

/// What a state that need not be sound gives: fresh, with these bytes changed.
fn with(changes: &[(usize, u8)]) -> Box<Reply> {
    let (_, oracle) = Oracle::start(&board(2, 4, 2, 0, &[1, 2, 2, 2]));
    let mut image = oracle.unwrap().image();
    for &(at, byte) in changes {
        image[at] = byte;
    }
    let outcome = Oracle::load(&image).event(&[0; request::RECORD_SIZE]);
    assert_eq!(outcome.broken, None);
    assert_eq!(outcome.reply[reply::CODE], 108);
    assert_eq!(outcome.reply[reply::IMAGE..reply::ALL_ON], image);
    outcome.reply
}

/// The minimal allowed state of one domain's record: 109 and 111, and what the Rust gives.
pub fn answers() {
    use image::*;
    let row =
        |reply: &Reply, table: usize, domain: usize| reply[table + domain * CPUS..][..5].to_vec();
    let allowed = |reply: &Reply, domain: usize| row(reply, reply::ALLOWED, domain);

    let fresh = with(&[]);
    assert_eq!(fresh[reply::ALL_ON], 0);
    assert_eq!(allowed(&fresh, 1), [3, 0, 109, 109, 0]);

    // CPUs 2 and 3 have the request OFF, and CPU 3 a suspend state
    let beside = with(&[(SUSPENDS + 3, 1)]);
    assert_eq!(allowed(&beside, 2), [109, 109, 111, 3, 0]);
    assert_eq!(allowed(&beside, 0), [3, 0, 0, 0, 0]);
    assert_eq!(beside[reply::ALL_ON], 102);
    assert_eq!(beside[reply::IS_LAST..][..5], [102, 102, 102, 102, 0]);
    assert_eq!(
        beside[reply::LAST_TO_IDLE..][..17],
        [[102; 16].as_slice(), &[0]].concat()
    );

    // the request of CPU 0 is RUN, and its suspend state counts in its place
    let suspended = with(&[(SUSPENDS, 2), (SUSPENDS + CPUS, 2), (COPIES + 2, 1)]);
    assert_eq!(allowed(&suspended, 1), [3, 2, 109, 109, 0]);
    assert_eq!(allowed(&suspended, 0), [3, 2, 2, 2, 0]);
    assert_eq!(row(&suspended, reply::ALLOWED_BESIDE_CHILD, 0), [0; 5]);
    assert_eq!(
        row(&suspended, reply::ALLOWED_BESIDE_CHILD, 1),
        [1, 1, 1, 1, 0]
    );
    assert_eq!(row(&suspended, reply::ALLOWED_BESIDE_CHILD, 2), [0; 5]);
}
