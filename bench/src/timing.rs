//! Times several sides of one task in turn, and keeps the best of many for each, over two builds.

use std::cell::RefCell;
use std::collections::VecDeque;
use std::time::{Duration, Instant};

/// How long a side runs before the next has its turn, at the least.
const TURN: Duration = Duration::from_micros(150);

/// How much is measured.
#[derive(Clone, Copy)]
pub struct Effort<'a> {
    /// For each row of a table.
    pub time: Duration,
    /// Turns of each side, at the least.
    pub turns: u32,
    pub log: &'a RefCell<Log>,
}

/// The microseconds of every task in the order in which they are timed, a line each: those of the other build, if it ran before,
/// and those of this one.
#[derive(Default)]
pub struct Log {
    other: VecDeque<Vec<f64>>,
    own: Vec<Vec<f64>>,
}

impl Log {
    /// What the other build wrote.
    pub fn after(text: &str) -> Log {
        let time = |word: &str| word.parse().expect("a time");
        let times = |line: &str| line.split(' ').map(time).collect();
        Log {
            other: text.lines().map(times).collect(),
            own: Vec::new(),
        }
    }

    pub fn text(&self) -> String {
        let line = |times: &Vec<f64>| {
            let words: Vec<String> = times.iter().map(f64::to_string).collect();
            words.join(" ") + "\n"
        };
        self.own.iter().map(line).collect()
    }

    /// The next task's times: the better of the two builds for each side.
    fn next(&mut self, own: Vec<f64>) -> Vec<f64> {
        let better = match self.other.pop_front() {
            Some(other) => own.iter().zip(other).map(|(a, b)| a.min(b)).collect(),
            None => own.clone(),
        };
        self.own.push(own);
        better
    }
}

/// One side of a task: it is run once at each call.
pub type Side<'a> = Box<dyn FnMut() + 'a>;

/// Microseconds of each side, the better of both builds. The sides take turns, so that all see the same machine.
pub fn best(effort: Effort, sides: &mut [Side]) -> Vec<f64> {
    let calls: Vec<u32> = sides.iter_mut().map(calls_in_a_turn).collect();
    let mut best = vec![f64::INFINITY; sides.len()];
    let start = Instant::now();
    let mut turns = 0;
    while turns < effort.turns || start.elapsed() < effort.time {
        for ((side, &calls), best) in sides.iter_mut().zip(&calls).zip(&mut best) {
            *best = best.min(turn(side, calls));
        }
        turns += 1;
    }
    effort.log.borrow_mut().next(best)
}

/// Microseconds of one call, over so many.
fn turn(side: &mut Side, calls: u32) -> f64 {
    let start = Instant::now();
    for _ in 0..calls {
        side();
    }
    start.elapsed().as_secs_f64() * 1e6 / f64::from(calls)
}

/// How many calls a turn needs to be long enough to time.
fn calls_in_a_turn(side: &mut Side) -> u32 {
    let mut calls = 1;
    loop {
        let taken = turn(side, calls) * f64::from(calls);
        if taken >= TURN.as_secs_f64() * 1e6 || calls >= 1 << 20 {
            return calls;
        }
        calls *= 2;
    }
}
