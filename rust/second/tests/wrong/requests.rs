//! Wrong rules of Req 07, Req 13 and Req 14.

use super::Wrong;

pub const WRONG: [Wrong; 24] = [
    Wrong {
        what: "a newline in an export",
        file: "xml.rs",
        right: "character >= ' ' &&",
        wrong: "(character >= ' ' || character == '\\n') &&",
    },
    Wrong {
        what: "U+FFFF in an export",
        file: "xml.rs",
        right: " && character != '\\u{FFFF}'",
        wrong: "",
    },
    Wrong {
        what: "an export with shared objects",
        file: "xml.rs",
        right: "&& read.loaded.shared == 0",
        wrong: "",
    },
    Wrong {
        what: "61 behind the primary's type id",
        file: "xml.rs",
        right: "primary.first as usize,",
        wrong: "primary.first as usize + 1,",
    },
    Wrong {
        what: "62 at the text's number",
        file: "xml.rs",
        right: "demand(row.kind != NULL, NULL_TEXT, number)?;",
        wrong: "demand(row.kind != NULL, NULL_TEXT, number - 1)?;",
    },
    Wrong {
        what: "a raw > in an export",
        file: "xml.rs",
        right: "for byte in text.bytes() {",
        wrong: "for byte in text.bytes() {
        if byte == b'>' {
            xml.push(byte);
            continue;
        }",
    },
    Wrong {
        what: "a raw > in an import",
        file: "xml.rs",
        right: "b'>' | b'\"' | 0x80..=0xC1",
        wrong: "b'\"' | 0x80..=0xC1",
    },
    Wrong {
        what: "U+FFFE in an import",
        file: "xml.rs",
        right: "[0xEF, 0xBF] => 0x80..=0xBD",
        wrong: "[0xEF, 0xBF] => 0x80..=0xBE",
    },
    Wrong {
        what: "surrogates in an import",
        file: "xml.rs",
        right: "[0xED] => 0x80..=0x9F",
        wrong: "[0xED] => 0x80..=0xBF",
    },
    Wrong {
        what: "64 at the start of an entity",
        file: "xml.rs",
        right: "return refuse(OTHER_XML, self.at + 1);",
        wrong: "return refuse(OTHER_XML, self.at);",
    },
    Wrong {
        what: "bytes behind the XML",
        file: "xml.rs",
        right: "demand(self.at == self.xml.len(), OTHER_XML, self.at)?;",
        wrong: "",
    },
    Wrong {
        what: "another platform in an import",
        file: "xml.rs",
        right: "b\"XNBw\\x05\\x00",
        wrong: "b\"XNBm\\x05\\x00",
    },
    Wrong {
        what: "platform `x` for the driver",
        file: "driver.rs",
        right: "file[place] != b'w'",
        wrong: "file[place] == b'm'",
    },
    Wrong {
        what: "one byte of padding for the driver",
        file: "driver.rs",
        right: "seven.padding > 0",
        wrong: "seven.padding > 1",
    },
    Wrong {
        what: "a resource id as the use of a reader",
        file: "driver.rs",
        right: "row.kind != SHARED_REFERENCE && row.detail > 0",
        wrong: "row.detail > 0 && row.detail as usize <= used.len()",
    },
    Wrong {
        what: "43 at the name's length",
        file: "driver.rs",
        right: "Some(read.names[unused])",
        wrong: "Some(read.names[unused] - 1)",
    },
    Wrong {
        what: "44 at the earlier of two",
        file: "driver.rs",
        right: "targets[..*later].contains",
        wrong: "targets[*later + 1..].contains",
    },
    Wrong {
        what: "equal numbers as repeated keys",
        file: "driver.rs",
        right: "key.kind != STRING",
        wrong: "key.kind == 0",
    },
    Wrong {
        what: "anything but null first",
        file: "driver.rs",
        right: "primary.kind != PAGE",
        wrong: "primary.kind == 0",
    },
    Wrong {
        what: "47 for a page without picture",
        file: "driver.rs",
        right: "children(rows, page)[3]",
        wrong: "children(rows, page)[2]",
    },
    Wrong {
        what: "text bytes with ids and counts",
        file: "report.rs",
        right: "text.map_or(0, |text| text.len() as u64)",
        wrong: "text.map_or(0, |_| u64::from(row.length))",
    },
    Wrong {
        what: "image bytes with sizes",
        file: "report.rs",
        right: "u64::from(row.length) - SIZE_BYTES as u64",
        wrong: "u64::from(row.length)",
    },
    Wrong {
        what: "any file as an XNB file",
        file: "report.rs",
        right: "if !file.starts_with(b\"XNB\") {",
        wrong: "if file.is_empty() {",
    },
    Wrong {
        what: "a refused list as no refusal of a file",
        file: "report.rs",
        right: "figures[REFUSALS + refusal.number as usize] += 1",
        wrong: "figures[REFUSALS + refusal.number as usize] += u64::from(refusal.number != 32)",
    },
];
