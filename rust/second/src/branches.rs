//! The rule of Req 09 over the words of a table in either shape.

use crate::row::Row;
use crate::table::Table;

/// The first used row that breaks the rule, if one does; the first rows of the table are used.
///
/// "The rows that name a used row as parent are as many as its children; the first is the next row, each
/// other one stands the former's count further on, and its own count ends with the last (1 if none)."
pub fn broken_branch(table: Table, used: usize) -> Option<usize> {
    let numbers = 0..table.room();
    let rows: Vec<Row> = numbers.filter_map(|number| table.row(number)).collect();
    let mut naming = vec![Vec::new(); used];
    for (number, row) in rows.iter().enumerate() {
        let parent = row.parent.checked_sub(1);
        if let Some(naming) = parent.and_then(|parent| naming.get_mut(parent as usize)) {
            naming.push(number);
        }
    }
    (0..used).find(|&number| !keeps_rule(&rows, number, &naming[number]))
}

/// Whether a row keeps the rule, given the rows that name it as parent.
fn keeps_rule(rows: &[Row], number: usize, naming: &[usize]) -> bool {
    let Some(row) = rows.get(number) else {
        return false;
    };
    let behind = |number: usize| number as u64 + u64::from(rows[number].rows);
    let mut place = number as u64 + 1;
    for &child in naming {
        if child as u64 != place {
            return false;
        }
        place = behind(child);
    }
    naming.len() as u64 == u64::from(row.children) && behind(number) == place
}
