//! `report sum`: the sum of reports.

use super::season::{Season, UnreadPack, Written};
use super::shown::Form;
use crate::input::Input;
use crate::names::shown;
use crate::run::{End, Run, Status};
use std::path::PathBuf;

/// Add reports that `report --json` has printed
///
/// The figures are those of one run over all packs. A file may hold one report or
/// several, one behind the other. The refused packs of all reports are listed at the
/// end, and the status is then 1.
#[derive(clap::Args)]
#[command(verbatim_doc_comment)]
pub struct Sum {
    /// Reports as JSON, or - for standard input
    #[arg(value_name = "REPORT.json", required = true, value_hint = clap::ValueHint::FilePath)]
    reports: Vec<PathBuf>,

    #[command(flatten)]
    form: Form,
}

impl Sum {
    pub fn run(&self, run: &mut Run) -> End {
        let mut sum = Season::default();
        for path in &self.reports {
            let input = Input::of(path);
            let Ok(text) = input.read_or_report(run) else {
                continue;
            };
            match seasons(&text) {
                Ok(seasons) => seasons
                    .into_iter()
                    .for_each(|season| add(run, &input, &mut sum, season)),
                Err(why) => run.fail(input.shown(), why),
            }
        }
        if !sum.refused.is_empty() {
            run.mark(Status::Refused);
        }
        for UnreadPack { name, why } in &sum.unread {
            run.fail(shown(&name.file), format!("it is not counted: {why}"));
        }
        self.form.print(run, &sum)
    }
}

/// Adds a report; one that makes a figure too large is reported and left out.
fn add(run: &mut Run, input: &Input, sum: &mut Season, season: Season) {
    if let Err(refused) = sum.add(season) {
        let (number, place, rule) = (refused.refusal.number(), refused.place, refused.rule());
        run.note(&format!(
            "{}: refused {number} at {place}: {rule}\n",
            input.shown()
        ));
        run.mark(Status::Refused);
    }
}

/// The reports that a text has, one behind the other.
fn seasons(text: &[u8]) -> Result<Vec<Season>, String> {
    let values = serde_json::Deserializer::from_slice(text).into_iter::<Written>();
    let mut seasons = Vec::new();
    for written in values {
        let written = written.map_err(|error| format!("no report: {error}"))?;
        seasons.push(Season::try_from(written)?);
    }
    match seasons.is_empty() {
        true => Err("no report is in it".to_string()),
        false => Ok(seasons),
    }
}
