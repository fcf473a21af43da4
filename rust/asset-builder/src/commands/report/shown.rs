//! A report for people, for programs and for spreadsheets.

use super::season::{RefusedPack, Season, Written};
use crate::json::Line;
use crate::names::shown;
use crate::run::{End, Run};

/// The longest bar.
const BAR: usize = 20;
/// The column of a figure.
const FIGURE: usize = 20;

/// How a report is printed.
#[derive(clap::Args)]
pub struct Form {
    /// Print JSON: one object, which `report sum` takes
    #[arg(long, conflicts_with = "csv")]
    json: bool,

    /// Print CSV: a line a figure
    #[arg(long)]
    csv: bool,
}

impl Form {
    /// Prints a season as it is asked for.
    pub fn print(&self, run: &mut Run, season: &Season) -> End {
        if self.json {
            return run.print(&Line::of(Written::from(season)));
        }
        if self.csv {
            run.print(&csv(season))?;
            run.note(&refused_lines(&season.refused));
            return Ok(());
        }
        run.print(&table(season))
    }
}

/// The figures with shares, the refusals by rule, the rows by kind, and the refused packs.
fn table(season: &Season) -> String {
    let report = &season.report;
    let (counted, refused, unread) = (season.packs, season.refused.len(), season.unread.len());
    let packs = counted.saturating_add((refused + unread) as u64);
    let noun = if packs == 1 { "pack" } else { "packs" };
    let mut out =
        format!("{packs} {noun}: {counted} counted, {refused} refused, {unread} unread\n\n");
    let files = report.files();
    for (count, name) in [
        (files, "files"),
        (report.accepted(), "XNB files accepted"),
        (report.refused(), "XNB files refused"),
    ] {
        out += &line(count, files, name);
    }
    out += &bare_line(report.text_bytes(), "bytes of texts");
    out += &bare_line(report.image_bytes(), "bytes of images");
    out += &section(
        "XNB files refused, by rule",
        report.refused(),
        report
            .each_refusal()
            .map(|(refusal, files)| (files, format!("{} {}", refusal.number(), refusal.rule()))),
    );
    out += &section(
        "rows, by kind",
        report.all_rows(),
        report
            .each_kind()
            .map(|(kind, rows)| (rows, format!("{} {kind}", kind.number()))),
    );
    if refused > 0 {
        out += "\npacks refused\n\n";
        out += &refused_lines(&season.refused);
    }
    out
}

/// A heading and a line for each part of a whole; nothing for a whole of nothing.
fn section(title: &str, whole: u64, parts: impl Iterator<Item = (u64, String)>) -> String {
    if whole == 0 {
        return String::new();
    }
    let lines = parts.map(|(count, name)| line(count, whole, &name));
    format!("\n{title}\n\n{}", lines.collect::<String>())
}

/// A figure with its share of a whole, as a number and as a bar.
fn line(count: u64, whole: u64, name: &str) -> String {
    let share = match whole {
        0 => 0.0,
        _ => count as f64 / whole as f64,
    };
    let figure = grouped(count);
    let percent = 100.0 * share;
    let bar = bar(share);
    format!("{figure:>FIGURE$} {percent:>6.1} %  {bar:BAR$}  {name}\n")
}

/// A figure alone.
fn bare_line(count: u64, name: &str) -> String {
    let figure = grouped(count);
    format!("{figure:>FIGURE$} {:8}  {:BAR$}  {name}\n", "", "")
}

/// A bar as long as the share; what is not nothing has a mark.
fn bar(share: f64) -> String {
    let length = (share * BAR as f64).round() as usize;
    let least = usize::from(share > 0.0);
    "#".repeat(length.clamp(least, BAR))
}

/// A number with a comma between thousands.
fn grouped(number: u64) -> String {
    let digits = number.to_string();
    let mut out = String::new();
    for (place, digit) in digits.chars().enumerate() {
        if place > 0 && (digits.len() - place).is_multiple_of(3) {
            out.push(',');
        }
        out.push(digit);
    }
    out
}

fn refused_lines(refused: &[RefusedPack]) -> String {
    let line = |it: &RefusedPack| {
        let (name, number, place) = (shown(&it.name.file), it.number, it.place);
        format!("{name}: refused {number} at {place}: {}\n", shown(&it.rule))
    };
    refused.iter().map(line).collect()
}

/// A line a figure, below a line with the names of the columns.
fn csv(season: &Season) -> String {
    let report = &season.report;
    let mut out = "figure,number,name,count\n".to_string();
    let mut add = |figure: &str, number: Option<u32>, name: &str, count: u64| {
        let number = number.map_or(String::new(), |it| it.to_string());
        out += &format!("{figure},{number},{},{count}\n", quoted(name));
    };
    add("packs", None, "", season.packs);
    add("packs refused", None, "", season.refused.len() as u64);
    add("files", None, "", report.files());
    add("accepted", None, "", report.accepted());
    add("text bytes", None, "", report.text_bytes());
    add("image bytes", None, "", report.image_bytes());
    for (refusal, files) in report.each_refusal() {
        add("refused", Some(refusal.number()), refusal.rule(), files);
    }
    for (kind, rows) in report.each_kind() {
        add("rows", Some(kind.number()), &kind.to_string(), rows);
    }
    out
}

/// A name as CSV has it: in quotes if it holds a comma or a quote.
fn quoted(name: &str) -> String {
    match name.contains([',', '"']) {
        true => format!("\"{}\"", name.replace('"', "\"\"")),
        false => name.to_string(),
    }
}

#[cfg(test)]
mod tests {
    use super::*;

    #[test]
    fn thousands_are_grouped() {
        let cases = [
            (0, "0"),
            (999, "999"),
            (1_000, "1,000"),
            (12_345, "12,345"),
            (123_456, "123,456"),
            (1_234_567, "1,234,567"),
            (u64::MAX, "18,446,744,073,709,551,615"),
        ];
        for (number, expected) in cases {
            assert_eq!(grouped(number), expected);
        }
    }

    #[test]
    fn bars_are_as_long_as_shares() {
        let cases = [(0.0, 0), (0.001, 1), (0.5, 10), (0.99, 20), (1.0, 20)];
        for (share, length) in cases {
            assert_eq!(bar(share).len(), length, "{share}");
        }
    }

    #[test]
    fn names_with_commas_are_quoted() {
        assert_eq!(quoted("a b"), "a b");
        assert_eq!(quoted("a, \"b\""), "\"a, \"\"b\"\"\"");
    }
}
