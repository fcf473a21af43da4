//! `report`: what many packs contain.

mod season;
mod shown;
mod sum;

use crate::enums::Enums;
use crate::input::{Input, Packs, CHANGED};
use crate::json::Name;
use crate::refusal::Told;
use crate::run::{End, Run, Status};
use season::{RefusedPack, Season, UnreadPack};
use shown::Form;
use xnb::report::Counter;
use xnb::Loader;

/// Count what packs contain, or add such reports
///
/// Counts the files of all packs, the XNB files that are accepted and refused, the
/// refusals by rule, the rows of accepted files by kind, and the bytes of their texts
/// and images. A file that does not begin with XNB counts as a file only. A refused
/// pack changes no figure; it is listed at the end, and the status is then 1.
/// However the packs are split between runs, `report sum` adds their reports to the
/// same figures.
#[derive(clap::Args)]
#[command(verbatim_doc_comment)]
#[command(args_conflicts_with_subcommands = true, subcommand_negates_reqs = true)]
pub struct Report {
    #[command(subcommand)]
    command: Option<Command>,

    #[command(flatten)]
    packs: Packs,

    #[command(flatten)]
    enums: Enums,

    #[command(flatten)]
    form: Form,
}

#[derive(clap::Subcommand)]
enum Command {
    Sum(sum::Sum),
}

impl Report {
    pub fn run(&self, run: &mut Run) -> End {
        match &self.command {
            Some(Command::Sum(command)) => command.run(run),
            None => self.count(run),
        }
    }

    fn count(&self, run: &mut Run) -> End {
        let Some(enums) = self.enums.read_beside(self.packs.have_stdin(), run) else {
            return Ok(());
        };
        let mut counter = Counter::by(Loader::new().with_enums(&enums));
        let mut season = Season::default();
        let inputs = self.packs.list();
        run.progress().expect(inputs.len());
        for input in &inputs {
            count_pack(run, input, &mut counter, &mut season);
            run.progress().step();
        }
        run.progress().clear();
        self.form.print(run, &season)
    }
}

/// Counts one pack; one that is refused or cannot be read is kept to be listed at the end.
fn count_pack(run: &mut Run, input: &Input, counter: &mut Counter, season: &mut Season) {
    let name = Name::of(input.path());
    let pack = match input.read_as_part(run) {
        Ok(pack) => pack,
        Err(why) => return season.unread.push(UnreadPack { name, why }),
    };
    let counted = run.progress().during("counting", || counter.add(&pack));
    let figures = counter.take();
    if !input.is_unchanged(run, &pack) {
        let why = CHANGED.to_string();
        return season.unread.push(UnreadPack { name, why });
    }
    match counted.and_then(|()| season.report.add(&figures)) {
        Ok(()) => season.packs += 1,
        Err(refused) => {
            let told = Told::of_pack(&pack, refused, false);
            season.refused.push(RefusedPack::of(name, &told));
            run.mark(Status::Refused);
        }
    }
}
