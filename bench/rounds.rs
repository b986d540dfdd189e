//! What a machine gives to rounds of plain work that shares no memory: `rounds THREADS anew` or
//! `rounds THREADS kept`, which prints the seconds that a round took, in the mean.
//!
//! One thread does a seventeenth of a round alone, as `dnr serve` cuts lines and puts answers in
//! order, and the rest is dealt to so many threads. All but one of them are started `anew` in each
//! round, as in `dnr`, or they are `kept` for all rounds, and wait for each on a condition variable,
//! as the first one waits there for their end.

use std::env;
use std::hint::black_box;
use std::sync::{Condvar, Mutex, MutexGuard};
use std::thread;
use std::time::Instant;

const ROUNDS: u64 = 200;
// A round has 1,024 lines, each of which takes some 4 µs on one thread, as requests do.
const LINE: u64 = 16_000;
const SHARED: u64 = 1_024 * LINE;
const ALONE: u64 = SHARED / 16;

fn work(steps: u64) {
    let mut state = 1_u64;
    for step in 0..steps {
        state = state.wrapping_mul(6_364_136_223_846_793_005).wrapping_add(step);
    }
    black_box(state);
}

fn started_anew(threads: u64) {
    for _ in 0..ROUNDS {
        work(ALONE);
        thread::scope(|scope| {
            for _ in 1..threads {
                scope.spawn(|| work(SHARED / threads));
            }
            work(SHARED / threads);
        });
    }
}

/// The number of a round, and how many kept threads have not ended it.
struct Round {
    number: u64,
    left: u64,
}

struct Board {
    round: Mutex<Round>,
    begun: Condvar,
    ended: Condvar,
}

impl Board {
    fn new() -> Board {
        Board {
            round: Mutex::new(Round { number: 0, left: 0 }),
            begun: Condvar::new(),
            ended: Condvar::new(),
        }
    }

    fn round(&self) -> MutexGuard<'_, Round> {
        self.round.lock().expect("no thread panics")
    }

    fn begin(&self, threads: u64) {
        let mut round = self.round();
        round.number += 1;
        round.left = threads;
        self.begun.notify_all();
    }

    fn wait_for(&self, number: u64) {
        let waited = self.begun.wait_while(self.round(), |round| round.number < number);
        drop(waited.expect("no thread panics"));
    }

    fn end(&self) {
        let mut round = self.round();
        round.left -= 1;
        if round.left == 0 {
            self.ended.notify_one();
        }
    }

    fn wait_for_all(&self) {
        let waited = self.ended.wait_while(self.round(), |round| 0 < round.left);
        drop(waited.expect("no thread panics"));
    }
}

fn kept(threads: u64) {
    let board = Board::new();
    thread::scope(|scope| {
        for _ in 1..threads {
            scope.spawn(|| {
                for number in 1..=ROUNDS {
                    board.wait_for(number);
                    work(SHARED / threads);
                    board.end();
                }
            });
        }
        for _ in 0..ROUNDS {
            work(ALONE);
            board.begin(threads - 1);
            work(SHARED / threads);
            board.wait_for_all();
        }
    });
}

fn main() {
    let words: Vec<String> = env::args().skip(1).collect();
    let threads = words[0].parse().expect("a count of threads");
    let begun = Instant::now();
    match words[1].as_str() {
        "anew" => started_anew(threads),
        "kept" => kept(threads),
        _ => panic!("anew or kept"),
    }
    println!("{:.9}", begun.elapsed().as_secs_f64() / ROUNDS as f64);
}
