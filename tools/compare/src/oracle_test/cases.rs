//! The bench cases, and an example.

use super::make::*;
use crate::layout::*;
use crate::oracle::*;

/// A bench history: each event with the code that the rules give it.
struct Bench(Oracle);

impl Bench {
    fn fresh() -> Self {
        Self::on(board(2, 4, 2, 0, &[1, 2, 2, 2]))
    }

    fn on(board: Board) -> Self {
        let (outcome, oracle) = Oracle::start(&board);
        assert_eq!((outcome.reply[reply::CODE], outcome.broken), (0, None));
        Self(oracle.unwrap())
    }

    fn gives(&mut self, code: i8, record: Vec<u8>) -> Box<Reply> {
        let outcome = self.0.event(&record);
        assert_eq!(outcome.broken, None);
        assert_eq!(
            outcome.reply[reply::CODE] as i8,
            code,
            "{record:?} by {:?}",
            outcome.by
        );
        outcome.reply
    }

    fn hands(&mut self, states: [u8; 4], record: Vec<u8>) -> Box<Reply> {
        let reply = self.gives(0, record);
        assert_eq!(reply[reply::STATES..][..4], states);
        reply
    }
}

fn notices(reply: &Reply) -> Vec<u8> {
    let kinds = (0..reply::NOTICE_COUNT).map(|at| reply[reply::NOTICES + at * reply::NOTICE]);
    kinds.filter(|&kind| kind != notice::NOTHING).collect()
}

fn stored(reply: &Reply, at: usize) -> u8 {
    reply[reply::IMAGE + at]
}

pub fn bench_cases() {
    use image::*;
    use notice::*;
    let cpu_1_up = || {
        let mut bench = Bench::fresh();
        bench.gives(0, on(0, 1, 1, 0));
        let reply = bench.hands([3, 0, 0, 0], boot(1));
        assert_eq!(
            (
                reply[reply::WAKE],
                reply[reply::ENTRY],
                reply[reply::ENTRY + 1],
                reply[reply::ENTRY + 9]
            ),
            (1, 1, 0x10, 1)
        );
        assert_eq!(notices(&reply), [ON_FINISH]);
        bench
    };

    let b1 = Bench::fresh().hands([2, 2, 0, 0], suspend(0, 0, [2, 2, 0, 0]));
    assert_eq!(stored(&b1, COPIES + 1), 0);
    assert_eq!(
        notices(&b1),
        [
            SPM_TOLD_SUSPEND,
            CORE_POWER_DOWN,
            PLATFORM_SUSPEND,
            PLATFORM_POWER_DOWN
        ]
    );
    assert_eq!(b1[reply::NOTICES + reply::NOTICE + 1], 1);

    let mut bench = cpu_1_up();
    let b2 = bench.hands([3, 0, 0, 0], suspend(0, 0, [3, 3, 3, 0]));
    assert_eq!(stored(&b2, REQUESTS + CPUS), 3);
    bench.hands([2, 2, 1, 0], suspend(1, 0, [2, 2, 1, 0]));
    let back = bench.hands([2, 2, 1, 0], finish(1));
    assert_eq!(notices(&back), [SUSPEND_FINISH, SPM_ABANDON]);

    let b4 = Bench::fresh().hands([3, 3, 3, 0], off(0, 0));
    assert_eq!(
        notices(&b4),
        [
            SPM_TOLD_OFF,
            SPM_NOTIFIED_OFF,
            CORE_POWER_DOWN,
            PLATFORM_OFF,
            PLATFORM_POWER_DOWN
        ]
    );

    let mut bench = Bench::fresh();
    bench.gives(0, on(0, 1, 1, 0));
    bench.gives(-5, on(0, 1, 1, 0));
    bench.gives(0, boot(1));
    bench.gives(-4, on(0, 1, 1, 0));

    let b6 = Bench::fresh().gives(-2, on(0, 1, 1, 0xFE));
    assert_eq!(stored(&b6, CPU_ROW + CPU + CPU_AFFINITY), 1);
    Bench::fresh().gives(-9, on(0, 0, 0, 0));

    let mut bench = Bench::fresh();
    bench.gives(0, on(0, 1, 1, 0));
    bench.gives(0, mode(0, 1, 0));
    bench.gives(-3, mode(0, 1, 1));
    bench.gives(-3, system_suspend(0, 1, 0, 1, [3, 3, 3, 0]));

    let mut bench = Bench::fresh();
    bench.gives(-2, suspend(0, 0, [2, 0, 1, 0]));
    bench.gives(-2, suspend(0, 0, [0, 0, 0, 0]));
    bench.gives(-2, suspend(0, 0, [1, 2, 0, 0]));
    bench.hands([2, 3, 0, 0], suspend(0, 0, [2, 3, 0, 0]));

    let mut bench = Bench::fresh();
    bench.gives(105, boot(1));
    bench.gives(105, finish(0));

    let starts = |board: Board| Oracle::start(&board).0.reply[reply::CODE];
    assert_eq!(starts(board(2, 4, 2, 0, &[1, 2, 2])), 101);
    assert_eq!(starts(board(2, 4, 2, 0, &[1, 2, 2, 0])), 101);
    assert_eq!(starts(board(1, 2, 1, 15, &[1, 16])), 0);
    assert_eq!(starts(board(1, 2, 1, 0, &[1, 17])), 101);
}

/// A worked example, and what the bench cases leave out of each call.
pub fn examples() {
    let mut bench = Bench::fresh();
    bench.gives(0, suspend(0, 0, [2, 2, 0, 0]));
    let reply = bench.hands([2, 2, 0, 0], boot(0));
    assert_eq!((reply[reply::WAKE], reply[reply::ENTRY + 1]), (2, 0x20));
    bench.gives(-2, on(0, 9, 1, 0));

    let mut bench = Bench::fresh();
    bench.gives(108, vec![5, 0, 9, 0, 0]);
    bench.gives(108, suspend(0, 0, [1, 0, 0, 1]));
    bench.gives(-2, suspend(0, 0, [4, 0, 0, 0]));
    bench.gives(103, off(4, 0));
    bench.gives(104, off(1, 0));
    bench.gives(-6, off(0, 0xFA));
    assert_eq!(
        bench.gives(0, suspend(0, 1, [3, 0, 0, 0]))[reply::NOT_ENTERED],
        1
    );
    bench.gives(-1, system_suspend(0, 0, 0, 0, [9, 9, 9, 0]));
    bench.gives(-9, system_suspend(0, 1, 0, 0, [9, 9, 9, 0]));
    bench.gives(106, system_suspend(0, 1, 0, 1, [9, 9, 9, 0]));
    bench.gives(106, system_suspend(0, 1, 0, 1, [0, 0, 3, 0]));
    bench.gives(106, system_suspend(0, 1, 0, 1, [3, 3, 1, 0]));
    bench.gives(-3, system_suspend(0, 1, 0, 1, [3, 3, 0, 0]));
    bench.hands([2, 2, 3, 0], system_suspend(0, 1, 0, 1, [2, 2, 3, 0]));
    bench.hands([2, 2, 3, 0], finish(0));
    bench.hands([3, 3, 2, 0], system_suspend(0, 1, 0, 1, [3, 3, 2, 0]));
    bench.hands([3, 3, 2, 0], boot(0));
    bench.gives(0, suspend(0, 0, [1, 0, 0, 0]));
    bench.gives(105, boot(0));
    bench.gives(0, finish(0));
    bench.gives(0, mode(0, 1, 1));
    bench.gives(107, suspend(0, 0, [1, 0, 0, 0]));
    bench.gives(107, suspend(0, 1, [2, 3, 0, 0]));
    bench.gives(-2, suspend(0, 1, [0, 3, 0, 0]));
    bench.gives(-3, system_suspend(0, 1, 0, 1, [3, 3, 0, 0]));
    bench.gives(106, system_suspend(0, 1, 0, 1, [3, 3, 1, 0]));
    bench.gives(107, system_suspend(0, 1, 0, 1, [2, 3, 3, 0]));
    bench.gives(107, system_suspend(0, 1, 1, 1, [3, 3, 3, 0]));
}
