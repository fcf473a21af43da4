//! Text lists as XML.

use crate::files::Given;
use crate::lent::Lent;
use crate::{in_two, packed};
use xnb::raw;

/// An export of a file where the first byte is even, else an import of XML; a second byte says how many bytes are lent.
pub fn xml(input: &[u8]) {
    match input {
        [direction, lent, rest @ ..] if direction % 2 == 0 => export(usize::from(*lent), rest),
        [_, lent, xml @ ..] => import(usize::from(*lent), xml),
        _ => {}
    }
}

fn export(lent: usize, rest: &[u8]) {
    let Some(Given { words, enums, file }) = Given::of(rest) else {
        return;
    };
    let mut table = Lent::new(7, words);
    let mut out = Lent::new(0xA5, 2 * lent);
    let answer = raw::xml::export(file, enums, table.linked(), out.linked());
    let expected = second::xml::export(file, enums, table.second(), out.second());
    assert_eq!(answer, packed(expected), "export to {} bytes", 2 * lent);
    table.check("words of an export");
    out.check("an export");
}

fn import(lent: usize, xml: &[u8]) {
    let mut out = Lent::new(0xA5, 2 * lent);
    let answer = raw::xml::import(xml, out.linked());
    let expected = second::xml::import(xml, out.second());
    assert_eq!(answer, in_two(expected), "import to {} bytes", 2 * lent);
    out.check("an import");
}
