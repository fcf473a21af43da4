//! 11 and 33 to 38: reader names; the whole table of them stands in `names`.

use crate::names::nested;
use crate::readers::{marked_reader, BYTE};
use crate::sample::{refused, Sample};
use crate::values::{file, null};
use crate::writer::{File, Part, Role};

/// The kept samples: their names, their refusals and the reader names, each with its mark.
const NAMES: &[(&str, u32, &str)] = &[
    // A head that is empty, at each place where a head starts.
    ("name-of-a-comma", 33, "»,"),
    ("name-starts-with-a-space", 33, "» Microsoft.Xna.Framework.Content.ByteReader"),
    ("name-starts-with-a-backquote", 33, "»`1[[System.Byte]]"),
    ("argument-of-no-byte", 33, "Microsoft.Xna.Framework.Content.ListReader`1[[»]]"),
    ("second-argument-starts-with-a-comma", 33, "Microsoft.Xna.Framework.Content.DictionaryReader`2[[System.Byte],[»,System.Byte]]"),
    ("ends-where-a-head-is-due", 33, "Microsoft.Xna.Framework.Content.ListReader`1[[»"),
    ("ends-where-a-second-head-is-due", 33, "Microsoft.Xna.Framework.Content.DictionaryReader`2[[System.Byte],[»"),
    // A bad byte behind a head.
    ("hyphen-in-head", 34, "Microsoft.Xna.Framework.Content.List»-Reader`1[[System.Char]]"),
    ("space-behind-head", 34, "Microsoft.Xna.Framework.Content.ByteReader» "),
    ("bracket-behind-head", 34, "Microsoft.Xna.Framework.Content.ListReader»[[System.Byte]]"),
    ("closing-bracket-behind-head", 34, "Microsoft.Xna.Framework.Content.ByteReader»]"),
    ("array-type-as-argument", 34, "Microsoft.Xna.Framework.Content.ListReader`1[[System.Byte»[]]]"),
    ("two-bytes-of-a-letter-in-head", 34, "Microsoft.Xna.Framework.Content.ByteRead»ér"),
    // A digit that is not 1 or 2.
    ("digit-9", 35, "Microsoft.Xna.Framework.Content.ListReader`»9[[System.Byte]]"),
    ("letter-for-a-digit", 35, "Microsoft.Xna.Framework.Content.ListReader`»a[[System.Byte]]"),
    ("bracket-for-a-digit", 35, "Microsoft.Xna.Framework.Content.ListReader`»[[System.Byte]]"),
    ("ends-behind-a-backquote", 35, "Microsoft.Xna.Framework.Content.ListReader`»"),
    ("ends-behind-argument-backquote", 35, "Microsoft.Xna.Framework.Content.ListReader`1[[System.Nullable`»"),
    // Brackets out of form, and what follows them.
    ("no-closing-bracket", 36, "Microsoft.Xna.Framework.Content.ListReader`1[[System.Byte]»"),
    ("digit-1-with-2-arguments", 36, "Unknown`1[[A]»,[B]]"),
    ("digit-2-with-3-arguments", 36, "Unknown`2[[A],[B]»,[C]]"),
    ("two-digits", 36, "A`1»2[["),
    ("tail-for-brackets", 36, "Microsoft.Xna.Framework.Content.ListReader`1», tail"),
    ("one-bracket-for-two", 36, "Microsoft.Xna.Framework.Content.ListReader`1[»System.Byte]"),
    ("no-argument-in-brackets", 36, "Microsoft.Xna.Framework.Content.ListReader`1[»]"),
    ("no-comma-between-arguments", 36, "Microsoft.Xna.Framework.Content.DictionaryReader`2[[System.Byte]»[System.Byte]]"),
    ("space-between-arguments", 36, "Microsoft.Xna.Framework.Content.DictionaryReader`2[[System.Byte],» [System.Byte]]"),
    ("one-bracket-too-many", 36, "Microsoft.Xna.Framework.Content.ListReader`1[[System.Byte]]»]"),
    ("letters-behind-brackets", 36, "Microsoft.Xna.Framework.Content.ListReader`1[[System.Byte]]»tail"),
    ("letter-behind-argument-brackets", 36, "Microsoft.Xna.Framework.Content.ListReader`1[[System.Nullable`1[[System.Byte]]»x]]"),
    ("ends-in-brackets", 36, "Microsoft.Xna.Framework.Content.ListReader`1[»"),
    ("ends-behind-argument-head", 36, "Microsoft.Xna.Framework.Content.ListReader`1[[System.Byte»"),
    ("ends-in-argument-tail", 36, "Microsoft.Xna.Framework.Content.ListReader`1[[System.Byte, mscorlib»"),
    ("ends-behind-a-comma", 36, "Microsoft.Xna.Framework.Content.DictionaryReader`2[[System.Byte],»"),
    ("ends-behind-argument-brackets", 36, "Microsoft.Xna.Framework.Content.ListReader`1[[System.Nullable`1[[System.Byte]]»"),
    // A bad byte in a tail.
    ("bracket-in-tail", 37, "Microsoft.Xna.Framework.Content.ByteReader, a»]b"),
    ("bracket-in-argument-tail", 37, "Microsoft.Xna.Framework.Content.ListReader`1[[System.Byte, a»[b]]"),
    ("tab-in-tail-behind-brackets", 37, "Microsoft.Xna.Framework.Content.ListReader`1[[System.Byte]],»\t"),
    ("letter-of-two-bytes-in-argument-tail", 37, "Microsoft.Xna.Framework.Content.ListReader`1[[System.Byte, b»é]]"),
    // Behind seven names with open brackets a head has level 8 and its arguments level 9.
    ("empty-head-at-level-8", 33, "A`1[[A`1[[A`1[[A`1[[A`1[[A`1[[A`1[[»]"),
    ("digit-at-level-8", 35, "A`1[[A`1[[A`1[[A`1[[A`1[[A`1[[A`1[[B`»3[["),
    ("brackets-at-level-8", 36, "A`1[[A`1[[A`1[[A`1[[A`1[[A`1[[A`1[[B`1[»C"),
    ("level-9-at-the-name-end", 38, "A`1[[A`1[[A`1[[A`1[[A`1[[A`1[[A`1[[B`1[[»"),
    ("level-9-of-no-byte", 38, "A`1[[A`1[[A`1[[A`1[[A`1[[A`1[[A`1[[B`2[[»]"),
    ("level-9-starts-with-a-hyphen", 38, "A`1[[A`1[[A`1[[A`1[[A`1[[A`1[[A`1[[B`1[[»-"),
    // 11 at the leftmost head that it complains of.
    ("unknown-reader", 11, "»Microsoft.Xna.Framework.Content.PlaneReader"),
    ("unknown-reader-of-unknown-argument", 11, "»Unknown`1[[Unknown]]"),
    ("list-without-argument", 11, "»Microsoft.Xna.Framework.Content.ListReader"),
    ("list-of-two-unknown-arguments", 11, "»Microsoft.Xna.Framework.Content.ListReader`2[[Unknown],[Unknown]]"),
    ("unknown-argument", 11, "Microsoft.Xna.Framework.Content.ListReader`1[[»Coach.Door]]"),
    ("two-unknown-arguments", 11, "Microsoft.Xna.Framework.Content.DictionaryReader`2[[»Unknown],[Other]]"),
    ("unknown-second-argument", 11, "Microsoft.Xna.Framework.Content.DictionaryReader`2[[System.Byte, a, b],[»Unknown, c]], d"),
    ("argument-with-wrong-count-of-unknown", 11, "Microsoft.Xna.Framework.Content.ListReader`1[[»System.Collections.Generic.Dictionary`1[[Unknown]]]]"),
    ("enum-of-a-target-name", 11, "Microsoft.Xna.Framework.Content.EnumReader`1[[»System.Int32]]"),
    ("enum-with-an-argument", 11, "Microsoft.Xna.Framework.Content.EnumReader`1[[»Coach.Door`1[[Unknown]]]]"),
    ("nullable-of-text", 11, "Microsoft.Xna.Framework.Content.NullableReader`1[[»System.String]]"),
    ("nullable-of-text-inside", 11, "Microsoft.Xna.Framework.Content.ListReader`1[[System.Nullable`1[[»System.String]]]]"),
    ("nullable-of-nullable-of-text", 11, "Microsoft.Xna.Framework.Content.NullableReader`1[[»System.Nullable`1[[System.String]]]]"),
];

pub fn samples() -> Vec<Sample> {
    let of = |(name, number, marked): &(&str, u32, &str)| refused(name, *number, named(marked));
    let mut samples: Vec<Sample> = NAMES.iter().map(of).collect();
    let nine = nested(9).replace("System.Byte", "»System.Byte");
    samples.push(refused("nine-levels", 38, named(&nine)));
    samples
}

/// A file whose second reader has a bad name and, behind it, a bad version.
fn named(marked: &str) -> File {
    let mut file = file(&[BYTE, ""], null(), vec![]);
    file.readers[1] = marked_reader(marked);
    file.readers[1].pop();
    let version = Part::Field(Role::ReaderVersion, vec![1, 0, 0, 0]);
    file.readers[1].push(version);
    file
}
