//! `tree`: the values of a file, each below the one that it belongs to.

use super::listing::Listing;
use super::tell_refusal;
use crate::fields::{fields, Field};
use crate::json::{Refused, Report};
use crate::run::{End, Run, Status};
use crate::values::{value, Value};
use serde::Serialize;
use xnb::{Detail, Table};

/// Print the values of each file as a tree
///
/// A line a value, two spaces deeper than the value that it belongs to.
/// A refusal goes to standard error. Of several files, each begins with
/// `==> NAME <==`.
#[derive(clap::Args)]
#[command(verbatim_doc_comment)]
pub struct Tree {
    #[command(flatten)]
    listing: Listing,
}

/// What is reported of a file.
#[derive(Serialize)]
struct Shown {
    /// The file's length.
    bytes: usize,
    objects: Vec<Node>,
}

/// A value with all below it.
#[derive(Serialize)]
struct Node {
    row: u32,
    /// What it is to the value above it.
    #[serde(skip_serializing_if = "Option::is_none")]
    name: Option<String>,
    kind: String,
    first: usize,
    length: usize,
    /// Its number of rows with all below it, itself included.
    rows: usize,
    #[serde(rename = "typeId", skip_serializing_if = "Option::is_none")]
    type_id: Option<u32>,
    #[serde(rename = "resourceId", skip_serializing_if = "Option::is_none")]
    resource_id: Option<u32>,
    #[serde(skip_serializing_if = "Value::is_nothing")]
    value: Value,
    /// What the value means, if the format names it.
    #[serde(skip_serializing_if = "Option::is_none")]
    meaning: Option<String>,
    #[serde(skip_serializing_if = "Vec::is_empty")]
    children: Vec<Node>,
}

impl Tree {
    pub fn run(&self, run: &mut Run) -> End {
        self.listing.for_each(run, |run, taken, loaded| {
            let table = match loaded {
                Ok(table) => table,
                Err(refused) => {
                    let refused = taken.told(refused);
                    if !self.listing.json {
                        tell_refusal(run, taken.input, &refused);
                        return Ok(());
                    }
                    run.mark(Status::Refused);
                    return run.print(&Report::line(taken.input, Refused { refused }));
                }
            };
            let objects = objects(&table);
            if self.listing.json {
                let bytes = taken.bytes.len();
                return run.print(&Report::line(taken.input, Shown { bytes, objects }));
            }
            let mut lines = self.listing.heading(taken.input);
            for object in &objects {
                object.add_lines(0, &mut lines);
            }
            run.print(&lines)
        })
    }
}

/// The primary object and the shared objects.
fn objects(table: &Table) -> Vec<Node> {
    let named = |(position, number)| {
        let name = match position {
            0 => "primary".to_string(),
            _ => format!("shared {position}"),
        };
        node(table, number, Field::named(name))
    };
    table.objects().enumerate().map(named).collect()
}

/// A value and all below it.
fn node(table: &Table, number: u32, field: Field) -> Node {
    let row = table.row(number).expect("the row of an object or a child");
    let children = table.children(number).zip(fields(table, number, row.kind));
    let children = children.map(|(child, field)| node(table, child, field));
    Node {
        row: number,
        name: field.name,
        kind: row.kind.to_string(),
        first: row.first,
        length: row.length,
        rows: row.rows,
        type_id: match row.detail {
            Detail::TypeId(id) => Some(id),
            _ => None,
        },
        resource_id: match row.detail {
            Detail::ResourceId(id) => Some(id),
            _ => None,
        },
        value: value(table, number),
        meaning: field.meaning,
        children: children.collect(),
    }
}

impl Node {
    fn add_lines(&self, depth: usize, lines: &mut String) {
        *lines += &"  ".repeat(depth);
        if let Some(name) = &self.name {
            *lines += &format!("{name}: ");
        }
        *lines += &self.kind;
        let value = self.value.to_string();
        if !value.is_empty() {
            *lines += &format!(" {value}");
        }
        if let Some(meaning) = &self.meaning {
            *lines += &format!(" ({meaning})");
        }
        *lines += "\n";
        for child in &self.children {
            child.add_lines(depth + 1, lines);
        }
    }
}
