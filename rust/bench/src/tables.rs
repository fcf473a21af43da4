//! The tables in which the library stands beside the tuned loader and the second program.

use crate::inputs::{self, Input};
use crate::measure::{beside_in, ROUNDS};
use crate::tasks::{self, Lent, Task};
use crate::{driver, marks, meshes, names, packs, report, salvage, xml};

/// Inputs, and what is done with each.
pub struct Table {
    pub name: &'static str,
    pub title: &'static str,
    pub inputs: fn() -> Vec<Input>,
    /// What is lent with an input.
    pub lend: fn(Input) -> Lent,
    /// How often each task is timed.
    pub rounds: usize,
    pub library: Call,
    pub others: &'static [Call],
    /// Tasks that are measured by time alone.
    pub timed: &'static [(&'static str, Task)],
}

/// A program's call: the task, and the function in which its instructions are counted.
pub struct Call {
    pub program: &'static str,
    pub task: Task,
    pub function: &'static str,
}

impl Table {
    /// The library's call and the others'.
    pub fn calls(&self) -> impl Iterator<Item = &Call> {
        std::iter::once(&self.library).chain(self.others)
    }
}

const fn call(program: &'static str, task: Task, function: &'static str) -> Call {
    Call {
        program,
        task,
        function,
    }
}

const MEMCPY: (&str, Task) = ("memcpy", tasks::copy);
const LOAD: Call = call("library", tasks::load_rows, "xnb_load_rows");
const TUNED_LOAD: Call = call("tuned", tasks::tuned_load, "tuned::load");
const SECOND_LOAD: Call = call("second", tasks::second_load, "second::load::load_in");

/// Rounds of tasks that take long.
const FEW_ROUNDS: usize = 7;

pub const TABLES: [Table; 17] = [
    Table {
        name: "builder",
        title: "xnb_load",
        inputs: || inputs::all(1000),
        lend: |input| Lent::new(input, 1024),
        rounds: ROUNDS,
        library: call("library", tasks::count_rows, "xnb_load"),
        others: &[TUNED_LOAD, SECOND_LOAD],
        timed: &[MEMCPY],
    },
    Table {
        name: "load",
        title: "xnb_load_rows",
        inputs: inputs::short_and_long,
        lend: Lent::just,
        rounds: ROUNDS,
        library: LOAD,
        others: &[TUNED_LOAD, SECOND_LOAD],
        timed: &[MEMCPY],
    },
    Table {
        name: "load-columns",
        title: "xnb_load_columns",
        inputs: inputs::short_and_long,
        lend: Lent::just,
        rounds: ROUNDS,
        library: call("library", tasks::load_columns, "xnb_load_columns"),
        others: &[call(
            "second",
            tasks::second_load_columns,
            "second::load::load_in",
        )],
        timed: &[("xnb_load_rows", tasks::load_rows)],
    },
    Table {
        name: "enums",
        title: "xnb_load_rows with enum types",
        inputs: inputs::enums,
        lend: Lent::just,
        rounds: ROUNDS,
        library: LOAD,
        others: &[TUNED_LOAD, SECOND_LOAD],
        timed: &[],
    },
    Table {
        name: "names",
        title: "xnb_load_rows over reader names",
        inputs: names::inputs,
        lend: Lent::just,
        rounds: ROUNDS,
        library: LOAD,
        others: &[TUNED_LOAD, SECOND_LOAD],
        timed: &[],
    },
    Table {
        name: "meshes",
        title: "xnb_load_rows over models",
        inputs: meshes::inputs,
        lend: Lent::just,
        rounds: ROUNDS,
        library: LOAD,
        others: &[TUNED_LOAD, SECOND_LOAD],
        timed: &[MEMCPY],
    },
    Table {
        name: "utf8",
        title: "UTF-8 through xnb_load",
        inputs: inputs::long_texts,
        lend: Lent::just,
        rounds: ROUNDS,
        library: call("library", tasks::count_rows, "xnb_load"),
        others: &[],
        timed: &[("from_utf8", tasks::judge_text)],
    },
    Table {
        name: "rewrite",
        title: "xnb_rewrite",
        inputs: inputs::short_and_long,
        lend: Lent::just,
        rounds: ROUNDS,
        library: call("library", tasks::rewrite, "xnb_rewrite"),
        others: &[
            call("tuned", tasks::tuned_rewrite, "tuned::rewrite::rewrite"),
            call("second", tasks::second_rewrite, "second::rewrite::rewrite"),
        ],
        timed: &[MEMCPY],
    },
    Table {
        name: "pack-read",
        title: "xnb_pack_read, files in the place of rows",
        inputs: packs::inputs,
        lend: Lent::just,
        rounds: ROUNDS,
        library: call("library", tasks::read_pack, "xnb_pack_read"),
        others: &[
            call("tuned", tasks::tuned_read_pack, "tuned::pack::read"),
            call(
                "second",
                tasks::second_read_pack,
                "second::pack::marked_read",
            ),
        ],
        timed: &[],
    },
    Table {
        name: "pack-find",
        title: "xnb_pack_find",
        inputs: packs::lookups,
        lend: packs::lend_table,
        rounds: ROUNDS,
        library: call("library", packs::find, "xnb_pack_find"),
        others: &[call("second", packs::second_find, "second::pack::find")],
        timed: &[],
    },
    Table {
        name: "mark",
        title: "xnb_pack_mark",
        inputs: marks::plain,
        lend: marks::lend,
        rounds: FEW_ROUNDS,
        library: call("library", marks::mark, "xnb_pack_mark"),
        others: &[call("second", marks::second_mark, "second::marks::convert")],
        timed: &[("memcpy", marks::copy)],
    },
    Table {
        name: "unmark",
        title: "xnb_pack_unmark",
        inputs: marks::marked,
        lend: marks::lend,
        rounds: FEW_ROUNDS,
        library: call("library", marks::unmark, "xnb_pack_unmark"),
        others: &[call(
            "second",
            marks::second_unmark,
            "second::marks::convert",
        )],
        timed: &[("memcpy", marks::copy)],
    },
    Table {
        name: "salvage",
        title: "xnb_pack_salvage",
        inputs: salvage::inputs,
        lend: salvage::lend,
        rounds: FEW_ROUNDS,
        library: call("library", salvage::salvage, "xnb_pack_salvage"),
        others: &[call(
            "second",
            salvage::second_salvage,
            "second::salvage::salvage",
        )],
        timed: &[MEMCPY],
    },
    Table {
        name: "xml-export",
        title: "xnb_export_xml",
        inputs: xml::files,
        lend: xml::lend,
        rounds: ROUNDS,
        library: call("library", xml::export, "xnb_export_xml"),
        others: &[call("second", xml::second_export, "second::xml::export")],
        timed: &[("memcpy of the file", xml::copy)],
    },
    Table {
        name: "xml-import",
        title: "xnb_import_xml",
        inputs: xml::xml_files,
        lend: xml::lend,
        rounds: ROUNDS,
        library: call("library", xml::import, "xnb_import_xml"),
        others: &[call("second", xml::second_import, "second::xml::import")],
        timed: &[("memcpy of the XML", xml::copy)],
    },
    Table {
        name: "driver",
        title: "xnb_load_driver",
        inputs: driver::inputs,
        lend: Lent::just,
        rounds: ROUNDS,
        library: call("library", driver::load, "xnb_load_driver"),
        others: &[call("second", driver::second_load, "second::driver::load")],
        timed: &[("xnb_load_rows", tasks::load_rows)],
    },
    Table {
        name: "report",
        title: "xnb_report_add",
        inputs: report::inputs,
        lend: report::lend,
        rounds: ROUNDS,
        library: call("library", report::add, "xnb_report_add"),
        others: &[call("second", report::second_add, "second::report::add")],
        timed: &[],
    },
];

/// Prints a line for each input: the library's time, and its ratio to each other task.
pub fn time(table: &Table) {
    let others = table.others.iter().map(|call| (call.program, call.task));
    let others: Vec<(&str, Task)> = others.chain(table.timed.iter().copied()).collect();
    let names: Vec<&str> = others.iter().map(|(name, _)| *name).collect();
    println!(
        "\n{}\n\n| group | input | bytes | rows | time | {} |",
        table.title,
        names.join(" | ")
    );
    println!("|---|---|---|---|---|{}", "---|".repeat(names.len()));
    for input in (table.inputs)() {
        let (group, name, rows) = (input.group, input.name.clone(), input.rows);
        let mut lent = (table.lend)(input);
        let measured: Vec<_> = others
            .iter()
            .map(|(_, other)| beside_in(table.rounds, &mut lent, table.library.task, *other))
            .collect();
        let (bytes, micros) = (lent.file.len(), measured[0].seconds * 1e6);
        print!("| {group} | {name} | {bytes} | {rows} | {micros:.2} µs |");
        for one in measured {
            print!(" {:.3} |", one.ratio);
        }
        println!();
    }
}
