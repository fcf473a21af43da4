//! The tuned loader and the second program over the same input: answers and lent buffers must be equal.

use fuzz::random::Random;
use std::collections::BTreeMap;

pub const WORDS_PER_ROW: usize = second::WORDS_PER_ROW;

/// How many generated files are tried; FUZZ_FILES in the environment asks for another number.
pub fn files() -> u64 {
    let asked = std::env::var("FUZZ_FILES").ok();
    asked.and_then(|it| it.parse().ok()).unwrap_or(20_000)
}

/// How often a call gave each refusal number, 0 for acceptance.
#[derive(Debug, Default)]
pub struct Counts(BTreeMap<u32, u64>);

impl Counts {
    fn count<T>(&mut self, answer: &Result<T, (u32, usize)>) {
        let number = match answer {
            Ok(_) => 0,
            Err((number, _)) => *number,
        };
        *self.0.entry(number).or_insert(0) += 1;
    }

    /// Each of these has occurred often.
    pub fn check(&self, numbers: impl IntoIterator<Item = u32>) {
        for number in numbers {
            let count = self.0.get(&number).copied().unwrap_or(0);
            assert!(count >= 20, "{number} is given {count} times");
        }
    }
}

/// Comparisons with one source of garbage, and what they have met.
pub struct Sides {
    /// The list of enum types that both are lent.
    pub enums: Vec<u8>,
    pub random: Random,
    pub loads: Counts,
    pub rewrites: Counts,
    pub packs: Counts,
}

impl Sides {
    pub fn new(seed: u64) -> Sides {
        Sides {
            enums: Vec::new(),
            random: Random::new(seed),
            loads: Counts::default(),
            rewrites: Counts::default(),
            packs: Counts::default(),
        }
    }

    /// Loads and rewrites a file, with so many words and with other numbers of words.
    pub fn compare(&mut self, name: &str, file: &[u8], words: usize) {
        let rows = self.load(name, file, words).unwrap_or(3);
        let fewer = self.random.below(WORDS_PER_ROW * rows + 1);
        let just = WORDS_PER_ROW * rows + self.random.below(2 * WORDS_PER_ROW);
        for words in [fewer, just] {
            let _ = self.load(name, file, words);
        }
        let any = self.random.below(file.len() + 40);
        if let Some(needed) = self.rewrite(name, file, words, any) {
            for out in [needed, needed - 1, needed + 9] {
                self.rewrite(name, file, words, out);
            }
            self.rewrite(name, file, fewer, needed);
        }
    }

    /// Loads with so many words lent; answers the number of rows.
    fn load(&mut self, name: &str, file: &[u8], words: usize) -> Option<usize> {
        let mut ours = self.some_words(words);
        let mut seconds = self.some_words(words);
        let answer = tuned::load(file, &self.enums, &mut ours)
            .map(|it| (it.rows, it.readers, it.shared, it.padding))
            .map_err(|it| (it.number, it.place));
        let expected = second::load(file, &self.enums, &mut seconds)
            .map(|it| (it.rows, it.readers, it.shared, it.padding))
            .map_err(|it| (it.number, it.place));
        assert_eq!(answer, expected, "{name}: load with {words} words");
        assert!(ours == seconds, "{name}: the {words} words after a load");
        self.loads.count(&answer);
        answer.ok().map(|(rows, ..)| rows)
    }

    /// Rewrites once; answers the bytes needed, unless the file is refused.
    fn rewrite(&mut self, name: &str, file: &[u8], words: usize, out: usize) -> Option<usize> {
        let (mut ours, mut seconds) = (self.some_words(words), self.some_words(words));
        let mut our_out = vec![self.random.byte(); out];
        let mut seconds_out = our_out.clone();
        let answer = tuned::rewrite(file, &self.enums, &mut ours, &mut our_out)
            .map_err(|it| (it.number, it.place));
        let expected = second::rewrite(file, &self.enums, &mut seconds, &mut seconds_out)
            .map_err(|it| (it.number, it.place));
        let told = format!("{name}: rewrite with {words} words to {out} bytes");
        assert_eq!(answer, expected, "{told}");
        assert!(ours == seconds, "{told}: words");
        assert!(our_out == seconds_out, "{told}: output");
        self.rewrites.count(&answer);
        match answer {
            Ok(length) | Err((21, length)) => Some(length),
            Err(_) => None,
        }
    }

    /// Reads a pack with so many words and with other numbers of words.
    pub fn compare_pack(&mut self, name: &str, pack: &[u8], words: usize) {
        let files = self.read_pack(name, pack, words).unwrap_or(20);
        let fewer = self.random.below(4 * files + 1);
        for words in [4 * files, fewer, 4 * files + 1 + self.random.below(9)] {
            self.read_pack(name, pack, words);
        }
    }

    /// Reads a pack with so many words lent; answers the number of files.
    fn read_pack(&mut self, name: &str, pack: &[u8], words: usize) -> Option<usize> {
        let mut ours = vec![self.random.number(); words];
        let mut seconds = vec![self.random.number(); words];
        let answer = tuned::pack::read(pack, &mut ours).map_err(|it| (it.number, it.place));
        let expected = second::pack::read(pack, &mut seconds).map_err(|it| (it.number, it.place));
        assert_eq!(answer, expected, "{name}: read with {words} words");
        assert!(ours == seconds, "{name}: the {words} words of the table");
        self.packs.count(&answer);
        answer.ok()
    }

    fn some_words(&mut self, words: usize) -> Vec<u32> {
        vec![self.random.number() as u32; words]
    }
}
