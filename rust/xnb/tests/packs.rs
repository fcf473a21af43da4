//! Packs: the static library against the second program, every word of every lent table compared.

mod lent;

use fuzz::packs::lookups::{other_table, some_paths};
use fuzz::packs::{case, limits, PackCase, PackKnown};
use fuzz::random::Random;
use lent::Lent;
use std::collections::BTreeMap;
use xnb::raw::pack as raw;

const NO_MARK: &[u8] = &[];

/// How many packs are tried; FUZZ_PACKS in the environment asks for another number.
fn packs() -> u64 {
    let asked = std::env::var("FUZZ_PACKS").ok();
    asked.and_then(|it| it.parse().ok()).unwrap_or(30_000)
}

/// How often a reading gave each refusal number, 0 for acceptance, and what lookups gave.
#[derive(Default)]
struct Counts {
    reads: BTreeMap<u32, u64>,
    found: u64,
    absent: u64,
    found_elsewhere: u64,
    absent_elsewhere: u64,
}

impl Counts {
    fn add(&mut self, other: Counts) {
        for (number, count) in other.reads {
            *self.reads.entry(number).or_insert(0) += count;
        }
        self.found += other.found;
        self.absent += other.absent;
        self.found_elsewhere += other.found_elsewhere;
        self.absent_elsewhere += other.absent_elsewhere;
    }

    fn print(&self, packs: u64) {
        println!("{packs} packs, readings by refusal: {:?}", self.reads);
        println!("lookups: {} found, {} absent", self.found, self.absent);
        println!(
            "in other words: {} found, {} absent",
            self.found_elsewhere, self.absent_elsewhere
        );
    }

    /// Every answer has occurred often.
    fn check(&self) {
        for number in [0, 1, 8, 9, 15, 20, 31] {
            let count = self.reads.get(&number).copied().unwrap_or(0);
            assert!(count >= 50, "{number} is given {count} times");
        }
        let found = self.found.min(self.found_elsewhere);
        let absent = self.absent.min(self.absent_elsewhere);
        assert!(found >= 1000 && absent >= 1000);
    }
}

/// Comparisons with one source of garbage, and what they have met.
struct Sides {
    random: Random,
    counts: Counts,
}

impl Sides {
    fn new(seed: u64) -> Sides {
        Sides {
            random: Random::new(seed),
            counts: Counts::default(),
        }
    }

    /// Reads with so many words lent; answers the table where the pack is accepted.
    fn read(&mut self, name: &str, pack: &[u8], words: usize) -> Option<Vec<u64>> {
        let mut linked = Lent::new(self.random.number(), words);
        let mut table = vec![self.random.number(); words];
        let answer = raw::read(pack, linked.middle());
        let expected = match second::pack::read(pack, &mut table) {
            Ok(files) => (0, files as u64),
            Err(refusal) => (refusal.number, refusal.place as u64),
        };
        let label = format!("{name}: read with {words} words");
        assert_eq!(answer, expected, "{label}");
        linked.check(&label, &table);
        *self.counts.reads.entry(answer.0).or_insert(0) += 1;
        (answer.0 == 0).then_some(table)
    }

    /// Looks up paths in any words; answers how many are found and absent.
    fn find(&mut self, name: &str, pack: &[u8], table: &[u64], paths: &[Vec<u8>]) -> (u64, u64) {
        let (mut found, mut absent) = (0, 0);
        for path in paths {
            let expected = match second::pack::find(pack, table, path) {
                Some(data) => {
                    found += 1;
                    let first = data.as_ptr().addr() - pack.as_ptr().addr();
                    (1, first as u64, data.len() as u64)
                }
                None => {
                    absent += 1;
                    (0, 0, 0)
                }
            };
            let answer = raw::find(pack, table, path);
            assert_eq!(answer, expected, "{name}: {path:02X?} in {table:?}");
        }
        (found, absent)
    }

    /// Reads one pack with the words of the case and with other numbers, and looks up in it.
    fn compare(&mut self, name: &str, case: &PackCase) {
        let pack = &case.bytes;
        let answer = self.read(name, pack, case.words);
        let enough = match &case.known {
            Some(PackKnown::Accepted(words)) => {
                let table = answer.as_ref().expect("a lawful pack");
                assert_eq!(table[..words.len()], words[..], "{name}");
                words.len()
            }
            _ => case.words.min(200),
        };
        let fewer = self.random.below(enough + 1);
        let more = enough + 1 + self.random.below(60);
        for words in [enough, enough.saturating_sub(1), fewer, more] {
            self.read(name, pack, words);
        }

        let table = answer.unwrap_or_default();
        let paths = paths_in(pack, &table);
        let asked = some_paths(&mut self.random, &paths, 8);
        let (found, absent) = self.find(name, pack, &table, &asked);
        self.counts.found += found;
        self.counts.absent += absent;
        for _ in 0..3 {
            let other = other_table(&mut self.random, pack, &table);
            let asked = some_paths(&mut self.random, &paths, 4);
            let (found, absent) = self.find(name, pack, &other, &asked);
            self.counts.found_elsewhere += found;
            self.counts.absent_elsewhere += absent;
        }
    }
}

/// The paths that a table names, of the first files.
fn paths_in(pack: &[u8], table: &[u64]) -> Vec<Vec<u8>> {
    let entries = table.chunks_exact(4).take(60);
    let path = |entry: &[u64]| pack[entry[0] as usize..][..entry[1] as usize].to_vec();
    entries.map(path).filter(|path| !path.is_empty()).collect()
}

/// The cases of the seeds that leave this rest.
fn generated(rest: u64, threads: u64) -> Counts {
    let mut sides = Sides::new(rest);
    for seed in (rest..packs()).step_by(threads as usize) {
        sides.random = Random::new(!seed);
        sides.compare(&format!("seed {seed}"), &case(NO_MARK, seed));
    }
    sides.counts
}

#[test]
fn generated_packs_give_the_second_programs_answers() {
    const THREADS: u64 = 2;
    let mut counts = Counts::default();
    std::thread::scope(|scope| {
        let parts = [0, 1].map(|rest| scope.spawn(move || generated(rest, THREADS)));
        for part in parts {
            counts.add(part.join().expect("no difference"));
        }
    });
    counts.print(packs());
    if packs() >= 20_000 {
        counts.check();
    }
}

#[test]
fn limits_give_the_second_programs_answers() {
    let limits = limits::cases(NO_MARK);
    assert!(limits.len() > 500, "only {} limits", limits.len());
    let mut sides = Sides::new(1);
    for limit in &limits {
        sides.compare(&limit.name, &limit.case);
    }
    sides.counts.print(limits.len() as u64);
}

/// Packs of the other form, and files of the XNB loader, are packs with faults.
#[test]
fn other_files_give_the_second_programs_answers() {
    let mut sides = Sides::new(2);
    for seed in 0..2_000 {
        let marked = case(b"\xFD\xFE", seed);
        for (bytes, words) in [(marked.bytes, marked.words), (fuzz::case(seed).bytes, 40)] {
            let known = None;
            let case = PackCase {
                bytes,
                words,
                known,
            };
            sides.compare(&format!("seed {seed}"), &case);
        }
    }
    sides.counts.print(4_000);
}

#[test]
fn corpus_packs_give_their_answers() {
    for sample in corpus::packs::folder::kept_packs() {
        let answers = sample.answers_of(
            |pack, table| match raw::read(pack, table) {
                (0, files) => Ok(files as usize),
                refused => Err(refused),
            },
            |pack, table, path| match raw::find(pack, table, path) {
                (0, 0, 0) => None,
                (found, first, length) => {
                    assert_eq!(found, 1);
                    Some((first, length))
                }
            },
        );
        assert_eq!(answers, sample.answers, "{}", sample.name);
    }
}

/// Tables of any length and paths of any length, typed with their answers.
#[test]
fn typed_lookups_give_their_answers() {
    let mut sides = Sides::new(3);
    for sample in corpus::packs::lookups::samples() {
        let expected = match sample.answer {
            Some((first, length)) => (1, first, length),
            None => (0, 0, 0),
        };
        let answer = raw::find(&sample.pack, &sample.table, &sample.path);
        assert_eq!(answer, expected, "{}", sample.name);
        sides.find(&sample.name, &sample.pack, &sample.table, &[sample.path]);
    }
}

#[test]
fn empty_slices_are_taken() {
    assert_eq!(raw::read(&[], &mut []), (1, 0));
    assert_eq!(raw::read(&[0; 4], &mut []), (0, 0));
    assert_eq!(raw::find(&[], &[], &[]), (0, 0, 0));
    assert_eq!(raw::find(&[], &[0; 4], &[]), (0, 0, 0));
    assert_eq!(raw::find(b"a", &[0, 1, 1, 0], b"A"), (1, 1, 0));
}
