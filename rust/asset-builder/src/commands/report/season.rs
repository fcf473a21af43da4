//! A report with the packs that it is of, and its form as JSON.

use crate::json::{Name, SCHEMA};
use crate::refusal::Told;
use serde::{Deserialize, Serialize};
use xnb::pack::PackRefused;
use xnb::report::{Report, REPORT_WORDS};
use xnb::{Kind, Refusal};

/// The figures of some packs, and those that are not among them.
#[derive(Clone, Debug, Default, PartialEq, Eq)]
pub struct Season {
    /// The number of packs that are counted.
    pub packs: u64,
    pub report: Report,
    pub refused: Vec<RefusedPack>,
    pub unread: Vec<UnreadPack>,
}

/// A pack that is refused, and why.
#[derive(Clone, Debug, PartialEq, Eq, Serialize, Deserialize)]
pub struct RefusedPack {
    #[serde(flatten)]
    pub name: Name,
    pub number: u32,
    pub place: u64,
    pub rule: String,
}

/// A pack that could not be read, and why.
#[derive(Clone, Debug, PartialEq, Eq, Serialize, Deserialize)]
pub struct UnreadPack {
    #[serde(flatten)]
    pub name: Name,
    pub why: String,
}

impl RefusedPack {
    pub fn of(name: Name, told: &Told) -> RefusedPack {
        RefusedPack {
            name,
            number: told.number(),
            place: told.place(),
            rule: told.rule().to_string(),
        }
    }
}

impl Season {
    /// Adds another season; nothing changes if a figure would be too large.
    pub fn add(&mut self, other: Season) -> Result<(), PackRefused> {
        self.report.add(&other.report)?;
        self.packs = self.packs.saturating_add(other.packs);
        self.refused.extend(other.refused);
        self.unread.extend(other.unread);
        Ok(())
    }
}

/// A season as JSON has it: figures that are 0 are left out of the lists.
#[derive(Serialize, Deserialize)]
#[serde(rename_all = "camelCase")]
pub struct Written {
    /// The number of the form, which every line of JSON begins with.
    #[serde(skip_serializing)]
    schema: u32,
    packs: u64,
    files: u64,
    accepted: u64,
    text_bytes: u64,
    image_bytes: u64,
    refusals: Vec<Refusals>,
    rows: Vec<Rows>,
    packs_refused: Vec<RefusedPack>,
    packs_unread: Vec<UnreadPack>,
}

/// How many files are refused by a rule.
#[derive(Serialize, Deserialize)]
struct Refusals {
    number: u32,
    rule: String,
    files: u64,
}

/// How many rows are of a kind.
#[derive(Serialize, Deserialize)]
struct Rows {
    kind: u32,
    name: String,
    rows: u64,
}

impl From<&Season> for Written {
    fn from(season: &Season) -> Written {
        let report = &season.report;
        let refusals = report.each_refusal().map(|(refusal, files)| Refusals {
            number: refusal.number(),
            rule: refusal.rule().to_string(),
            files,
        });
        let rows = report.each_kind().map(|(kind, rows)| Rows {
            kind: kind.number(),
            name: kind.to_string(),
            rows,
        });
        Written {
            schema: SCHEMA,
            packs: season.packs,
            files: report.files(),
            accepted: report.accepted(),
            text_bytes: report.text_bytes(),
            image_bytes: report.image_bytes(),
            refusals: refusals.collect(),
            rows: rows.collect(),
            packs_refused: season.refused.clone(),
            packs_unread: season.unread.clone(),
        }
    }
}

impl TryFrom<Written> for Season {
    type Error = String;

    fn try_from(written: Written) -> Result<Season, String> {
        if written.schema != SCHEMA {
            return Err(format!("form {} of JSON is not known", written.schema));
        }
        let mut words = [0; REPORT_WORDS];
        words[..4].copy_from_slice(&[
            written.files,
            written.accepted,
            written.text_bytes,
            written.image_bytes,
        ]);
        for Refusals { number, files, .. } in written.refusals {
            let known = Refusal::of_number(number).filter(|it| it.number() < 64);
            let Some(refusal) = known else {
                return Err(format!("no file is refused with {number}"));
            };
            words[4 + refusal.number() as usize] = files;
        }
        for Rows { kind, rows, .. } in written.rows {
            let Some(kind) = Kind::of_number(kind) else {
                return Err(format!("no row is of kind {kind}"));
            };
            words[68 + kind.number() as usize] = rows;
        }
        Ok(Season {
            packs: written.packs,
            report: Report::of_words(words),
            refused: written.packs_refused,
            unread: written.packs_unread,
        })
    }
}

#[cfg(test)]
mod tests {
    use super::*;
    use crate::json::Line;
    use std::ffi::OsStr;
    use std::os::unix::ffi::OsStrExt;

    /// A season with every figure.
    fn full() -> Season {
        let mut words: [u64; REPORT_WORDS] = [0; REPORT_WORDS];
        words[..4].copy_from_slice(&[u64::MAX, 1, 2, 3]);
        for number in (0..64).filter(|it| Refusal::of_number(*it).is_some()) {
            words[4 + number as usize] = 1 << number;
        }
        for kind in (0..64).filter(|it| Kind::of_number(*it).is_some()) {
            words[68 + kind as usize] = 5 * u64::from(kind) + 1;
        }
        Season {
            packs: 7,
            report: Report::of_words(words),
            refused: vec![RefusedPack {
                name: Name::of(OsStr::from_bytes(b"a \"b\"\n\xFF.pak").as_ref()),
                number: 20,
                place: u64::MAX,
                rule: "bytes are left over".to_string(),
            }],
            unread: vec![UnreadPack {
                name: Name::of("c.pak".as_ref()),
                why: "it is not there".to_string(),
            }],
        }
    }

    #[test]
    fn json_keeps_every_figure() {
        for season in [Season::default(), full()] {
            let line = Line::of(Written::from(&season));
            let written: Written = serde_json::from_str(&line).expect("JSON of ours");
            assert_eq!(Season::try_from(written), Ok(season));
        }
    }

    #[test]
    fn another_form_is_reported() {
        let line = Line::of(Written::from(&Season::default()));
        let line = line.replace("\"schema\":1", "\"schema\":2");
        let written: Written = serde_json::from_str(&line).expect("JSON of ours");
        let why = "form 2 of JSON is not known".to_string();
        assert_eq!(Season::try_from(written), Err(why));
    }

    #[test]
    fn numbers_that_no_report_has_are_reported() {
        let reported = |line: &str| {
            let written: Written = serde_json::from_str(line).expect("JSON of ours");
            Season::try_from(written).expect_err("a wrong number")
        };
        let start = r#"{"schema":1,"packs":0,"files":0,"accepted":0,"textBytes":0,"imageBytes":0,"#;
        let end = r#""packsRefused":[],"packsUnread":[]}"#;
        for number in [0, 10, 71, 72, 4_000_000_000_u32] {
            let wrong =
                format!(r#""refusals":[{{"number":{number},"rule":"","files":1}}],"rows":[],"#);
            let why = format!("no file is refused with {number}");
            assert_eq!(reported(&format!("{start}{wrong}{end}")), why);
        }
        for kind in [14, 31, 43, 64, u32::MAX] {
            let wrong = format!(r#""refusals":[],"rows":[{{"kind":{kind},"name":"","rows":1}}],"#);
            let why = format!("no row is of kind {kind}");
            assert_eq!(reported(&format!("{start}{wrong}{end}")), why);
        }
    }
}
