//! Every target over its first inputs, and over small changes of them.

use fuzz::random::Random;
use guided::{seeds, target, TARGETS};

/// How many changed inputs each target takes.
const CHANGED: usize = 4_000;

#[test]
fn first_inputs_give_equal_answers() {
    for (name, compare) in TARGETS {
        let seeds = seeds(name);
        assert!(seeds.len() >= 15, "{name} has {} first inputs", seeds.len());
        for seed in &seeds {
            compare(seed);
        }
    }
}

/// The targets stand any bytes, as afl++ gives them.
#[test]
fn changed_inputs_give_equal_answers() {
    let mut random = Random::new(37);
    for (name, compare) in TARGETS {
        let seeds = seeds(name);
        for _ in 0..CHANGED {
            let mut input = seeds[random.below(seeds.len())].clone();
            for _ in 0..random.below(4) {
                if !input.is_empty() {
                    let place = random.below(input.len());
                    input[place] = random.byte();
                }
            }
            input.truncate(random.below(input.len() + 1).max(input.len() / 2));
            compare(&input);
        }
    }
}

#[test]
fn targets_have_names() {
    assert!(target("load").is_some());
    assert!(target("other").is_none());
    for (_, compare) in TARGETS {
        compare(&[]);
        compare(&[0]);
        compare(&[0, 0]);
    }
}
