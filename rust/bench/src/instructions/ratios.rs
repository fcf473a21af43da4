//! The stored ratios, by table, input and program.

use std::collections::BTreeMap;
use std::path::PathBuf;

/// How far a ratio may be from the stored one.
const MOST_CHANGE: f64 = 0.05;

type Key = [String; 3];

/// Stored ratios and those of this run.
pub struct Ratios {
    stored: BTreeMap<Key, f64>,
    now: BTreeMap<Key, f64>,
}

fn path() -> PathBuf {
    PathBuf::from(env!("CARGO_MANIFEST_DIR")).join("ratios.txt")
}

/// A ratio in three digits.
pub fn told(ratio: f64) -> String {
    let digits = match ratio {
        0.0..0.01 => 5,
        0.01..0.1 => 4,
        0.1..1.0 => 3,
        _ => 2,
    };
    format!("{ratio:.digits$}")
}

impl Ratios {
    /// Those of the file, or none where there is no file yet.
    pub fn read() -> Result<Ratios, String> {
        let text = std::fs::read_to_string(path()).unwrap_or_default();
        let mut stored = BTreeMap::new();
        for line in text.lines().filter(|line| !line.starts_with('#')) {
            let parts: Vec<&str> = line.split(" | ").collect();
            let [table, input, program, ratio] = parts[..] else {
                return Err(format!("ratios.txt: {line}"));
            };
            let ratio = ratio.parse().map_err(|_| format!("ratios.txt: {line}"))?;
            stored.insert([table, input, program].map(String::from), ratio);
        }
        let now = BTreeMap::new();
        Ok(Ratios { stored, now })
    }

    /// Takes a ratio of this run.
    pub fn now(&mut self, table: &str, input: &str, program: &str, ratio: f64) {
        let key = [table, input, program].map(String::from);
        self.now.insert(key, ratio);
    }

    /// Names each ratio that differs from the stored one by more than the most, or is not stored.
    pub fn check(&self) -> Result<(), String> {
        let mut wrong = 0;
        for (key, now) in &self.now {
            let Some(stored) = self.stored.get(key) else {
                println!("not stored: {}", key.join(", "));
                wrong += 1;
                continue;
            };
            let change = now / stored - 1.0;
            if change.abs() > MOST_CHANGE {
                let side = if change < 0.0 { "slower" } else { "faster" };
                let (stored, now) = (told(*stored), told(*now));
                println!("{side}: {}: {now}, stored {stored}", key.join(", "));
                wrong += 1;
            }
        }
        if wrong > 0 {
            return Err(format!(
                "{wrong} ratios are not as stored; --write stores them anew"
            ));
        }
        println!(
            "\n{} ratios are within 5 % of the stored ones",
            self.now.len()
        );
        Ok(())
    }

    /// Stores the ratios of this run; those of other tables stay.
    pub fn write(mut self) -> Result<(), String> {
        self.stored.append(&mut self.now);
        let mut text = "# Instructions of the program divided by the library's: rust/bench/instructions --write\n".to_string();
        for (key, ratio) in &self.stored {
            text += &format!("{} | {}\n", key.join(" | "), told(*ratio));
        }
        std::fs::write(path(), text).map_err(|error| format!("ratios.txt: {error}"))
    }
}

#[cfg(test)]
mod tests {
    use super::*;
    use crate::tables::TABLES;

    #[test]
    fn stored_ratios_are_of_tables_and_programs() {
        let ratios = Ratios::read().expect("lines of four parts");
        assert!(!ratios.stored.is_empty());
        for ([table, input, program], ratio) in &ratios.stored {
            let others = TABLES.iter().filter(|it| it.name == table);
            let mut programs = others.flat_map(|it| it.others).map(|call| call.program);
            assert!(programs.any(|it| it == program), "{table}, {input}");
            assert!(*ratio > 0.0, "{table}, {input}");
        }
    }

    #[test]
    fn ratios_far_from_the_stored_ones_are_found() {
        let stored = |ratio| {
            let key = ["load", "1000 Int32", "tuned"].map(String::from);
            let stored = BTreeMap::from([(key, 0.5)]);
            let now = BTreeMap::new();
            let mut ratios = Ratios { stored, now };
            ratios.now("load", "1000 Int32", "tuned", ratio);
            ratios.check().is_ok()
        };
        assert!(stored(0.52) && stored(0.48));
        assert!(!stored(0.53) && !stored(0.47));
    }

    #[test]
    fn a_ratio_that_is_not_stored_is_found() {
        let (stored, now) = (BTreeMap::new(), BTreeMap::new());
        let mut ratios = Ratios { stored, now };
        assert!(ratios.check().is_ok());
        ratios.now("load", "1000 Int32", "tuned", 1.0);
        assert!(ratios.check().is_err());
    }
}
