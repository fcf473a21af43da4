//! Rows of the table.

pub const WORDS_PER_ROW: usize = 7;

/// One value of the file, as the table has it.
#[derive(Clone, Copy, Debug, PartialEq, Eq)]
pub struct Row {
    pub kind: u32,
    pub first: u32,
    pub length: u32,
    pub children: u32,
    /// The parent's row number plus 1, or 0.
    pub parent: u32,
    /// A type id, a resource id or 0.
    pub detail: u32,
    /// How many rows the value has with all below it, itself included.
    pub rows: u32,
}

impl Row {
    pub fn words(&self) -> [u32; WORDS_PER_ROW] {
        [
            self.kind,
            self.first,
            self.length,
            self.children,
            self.parent,
            self.detail,
            self.rows,
        ]
    }

    pub fn of_words(words: [u32; WORDS_PER_ROW]) -> Row {
        let [kind, first, length, children, parent, detail, rows] = words;
        Row {
            kind,
            first,
            length,
            children,
            parent,
            detail,
            rows,
        }
    }
}
