//! Times of two tasks beside each other.

use std::time::{Duration, Instant};

pub const ROUNDS: usize = 101;
/// How long one task runs in one round at least, if other programs do not stop it.
const ROUND: Duration = Duration::from_micros(300);

/// The time of one turn of a task, and another task's time divided by it.
pub struct Measured {
    pub seconds: f64,
    pub ratio: f64,
}

/// The medians over rounds in which both tasks run in turn, with the same buffers.
///
/// Where BENCH_ONCE is set both run once, for a tool that counts instructions.
pub fn beside<B>(buffers: &mut B, task: fn(&mut B), other: fn(&mut B)) -> Measured {
    beside_in(ROUNDS, buffers, task, other)
}

/// The same over so many rounds, for tasks that take long.
pub fn beside_in<B>(
    rounds: usize,
    buffers: &mut B,
    task: fn(&mut B),
    other: fn(&mut B),
) -> Measured {
    if std::env::var_os("BENCH_ONCE").is_some() {
        let seconds = time_of_a_turn(buffers, task, 1);
        let ratio = time_of_a_turn(buffers, other, 1) / seconds;
        return Measured { seconds, ratio };
    }
    let turns = turns_in_a_round(buffers, task);
    let other_turns = turns_in_a_round(buffers, other);
    let mut times = Vec::new();
    let mut other_times = Vec::new();
    for _ in 0..rounds {
        times.push(time_of_a_turn(buffers, task, turns));
        other_times.push(time_of_a_turn(buffers, other, other_turns));
    }
    let seconds = median(times);
    let ratio = median(other_times) / seconds;
    Measured { seconds, ratio }
}

fn turns_in_a_round<B>(buffers: &mut B, task: fn(&mut B)) -> u32 {
    let mut turns = 1;
    loop {
        let seconds = time_of_a_turn(buffers, task, turns) * f64::from(turns);
        if seconds >= ROUND.as_secs_f64() {
            return turns;
        }
        turns *= 2;
    }
}

fn time_of_a_turn<B>(buffers: &mut B, task: fn(&mut B), turns: u32) -> f64 {
    let start = Instant::now();
    for _ in 0..turns {
        task(buffers);
    }
    start.elapsed().as_secs_f64() / f64::from(turns)
}

fn median(mut numbers: Vec<f64>) -> f64 {
    numbers.sort_by(f64::total_cmp);
    numbers[numbers.len() / 2]
}
