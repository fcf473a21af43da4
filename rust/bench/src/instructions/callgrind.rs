//! One call of one program in a process of its own, counted by callgrind.
//!
//! The process makes the call twice and only the second is counted, in the program's own function and all that it calls:
//! by then memory is allocated once and the addresses of the C library's functions are known.
//!
//! Callgrind counts `rep movsb` and `rep stosb` once for each byte, though a processor moves many at once.
//! The C library uses them for long copies; here it is told not to, so that a long copy counts one instruction for each
//! of its moves of 32 bytes. The library's archive and the programs have no such instruction of their own.

use crate::inputs::Input;
use crate::tables::{Call, TABLES};
use crate::tasks::{Lent, Task};
use std::fs;
use std::hint::black_box;
use std::path::{Path, PathBuf};
use std::process::Command;

/// Above any length that is copied here.
const NO_REP: &str = "glibc.cpu.x86_rep_movsb_threshold=0x7fffffff:\
    glibc.cpu.x86_rep_stosb_threshold=0x7fffffff";

/// A folder for inputs and counts, which goes with it.
pub struct Callgrind {
    folder: PathBuf,
}

/// An input as files.
pub struct LentFiles {
    file: PathBuf,
    enums: PathBuf,
    rows: usize,
    is_refused: bool,
}

impl Callgrind {
    pub fn new() -> Result<Callgrind, String> {
        let folder = std::env::temp_dir().join(format!("bench-{}", std::process::id()));
        fs::create_dir_all(&folder).map_err(|error| told(&folder, error))?;
        Ok(Callgrind { folder })
    }

    /// Writes an input for the calls that follow.
    pub fn lend(&self, input: &Input) -> Result<LentFiles, String> {
        let lent = LentFiles {
            file: self.folder.join("file"),
            enums: self.folder.join("enums"),
            rows: input.rows,
            is_refused: input.is_refused,
        };
        for (path, bytes) in [(&lent.file, &input.bytes), (&lent.enums, &input.enums)] {
            fs::write(path, bytes).map_err(|error| told(path, error))?;
        }
        Ok(lent)
    }

    /// The instructions of the second of two equal calls.
    pub fn count(&self, table: &str, call: &Call, lent: &LentFiles) -> Result<u64, String> {
        let out = self.folder.join("counts");
        let _ = fs::remove_file(&out);
        let program = std::env::current_exe().map_err(|error| error.to_string())?;
        let refused = if lent.is_refused { "refused" } else { "" };
        let run = Command::new("valgrind")
            .args(["--tool=callgrind", "--zero-before=*counted_call*"])
            .arg(format!("--toggle-collect={}", call.function))
            .arg(format!("--callgrind-out-file={}", out.display()))
            .arg(program)
            .args(["instructions", "call", table, call.program])
            .arg(format!("{}{refused}", lent.rows))
            .args([&lent.file, &lent.enums])
            .env("GLIBC_TUNABLES", NO_REP)
            .output()
            .map_err(|error| format!("valgrind: {error}"))?;
        if !run.status.success() {
            return Err(String::from_utf8_lossy(&run.stderr).into_owned());
        }
        let counts = fs::read_to_string(&out).map_err(|error| told(&out, error))?;
        let total = counts
            .lines()
            .find_map(|line| line.strip_prefix("totals: "));
        match total.and_then(|total| total.parse().ok()) {
            Some(total) if total > 0 => Ok(total),
            _ => Err(format!("nothing was counted in {}", call.function)),
        }
    }
}

impl Drop for Callgrind {
    fn drop(&mut self) {
        let _ = fs::remove_dir_all(&self.folder);
    }
}

fn told(path: &Path, error: std::io::Error) -> String {
    format!("{}: {error}", path.display())
}

/// Makes one call twice; the number of rows may end in `refused`.
pub fn call(table: &str, program: &str, rows: &str, file: &str, enums: &str) -> Result<(), String> {
    let table = TABLES.iter().find(|it| it.name == table);
    let table = table.ok_or("no such table")?;
    let call = table.calls().find(|it| it.program == program);
    let task = call.ok_or("no such program")?.task;
    let (rows, is_refused) = match rows.strip_suffix("refused") {
        Some(rows) => (rows, true),
        None => (rows, false),
    };
    let read = |path: &str| fs::read(path).map_err(|error| told(Path::new(path), error));
    let input = Input {
        group: "",
        name: String::new(),
        bytes: read(file)?,
        enums: read(enums)?,
        rows: rows.parse().map_err(|_| "no number of rows")?,
        is_refused,
    };
    let mut lent = (table.lend)(input);
    task(&mut lent);
    counted_call(task, &mut lent);
    Ok(())
}

/// Where it begins what was counted before is forgotten.
#[inline(never)]
fn counted_call(task: Task, lent: &mut Lent) {
    task(lent);
    black_box(lent);
}
