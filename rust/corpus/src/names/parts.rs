//! Names of which one part is wrong, or several: Req 04's faults at every position of the grammar.

use super::{judged, nested, Judged};

/// Each name with the mark where it is refused.
pub const TABLE: &[(u32, &str)] = &[
    // "A head is empty where no head byte stands at its start."
    (33, "»-"),
    (33, "» "),
    (33, "»["),
    (33, "»`"),
    (33, "»\0A"),
    (33, "»éA"),
    (33, "A`1[[»`1[[B]]]]"),
    (33, "A`1[[»-B]]"),
    (33, "A`1[[»[B]]]"),
    (33, "A`1[[»"),
    (33, "A`1[[B`1[[»]]]]"),
    (33, "A`1[[B`1[[»"),
    (33, "A`2[[»],[C]]"),
    (33, "A`2[[B],[»,c]]"),
    (33, "A`2[[B],[»"),
    // "bad byte in a head"
    (34, "A»-"),
    (34, "A» "),
    (34, "A»["),
    (34, "A»]"),
    (34, "A»[[B]]"),
    (34, "A»\0"),
    (34, "A»é"),
    (34, "A.b_c+9»/"),
    (34, "A`1[[B»-]]"),
    (34, "A`1[[B» ]]"),
    (34, "A`1[[B»[C]]]"),
    (34, "A`1[[B`1[[C»=]]]]"),
    (34, "A`2[[B»;],[C]]"),
    (34, "A`2[[B],[C»:]]"),
    // "digit not 1 or 2"
    (35, "A`»"),
    (35, "A`»0"),
    (35, "A`»3[[B],[C],[D]]"),
    (35, "A`»[[B]]"),
    (35, "A`»]"),
    (35, "A`», b"),
    (35, "A`»`1[[B]]"),
    (35, "A`» 1[[B]]"),
    (35, "A`»²[[B],[C]]"),
    (35, "A`1[[B`»]]"),
    (35, "A`1[[B`»"),
    (35, "A`2[[B],[C`»9]]"),
    // "argument brackets out of form"
    (36, "A`1»-"),
    (36, "A`1»]"),
    (36, "A`1»A"),
    (36, "A`1», b"),
    (36, "A`1»`1[[B]]"),
    (36, "A`1»2[["),
    (36, "A`2»1[[B],[C]]"),
    (36, "A`1[»B]"),
    (36, "A`1[»]"),
    (36, "A`1[»,[B]]"),
    (36, "A`1[[B]»,[C]]"),
    (36, "A`1[[B]»[C]]"),
    (36, "A`1[[B]»-"),
    (36, "A`1[[B]» ]"),
    (36, "A`2[[B]»]"),
    (36, "A`2[[B]»[C]]"),
    (36, "A`2[[B]»;[C]]"),
    (36, "A`2[[B],»]"),
    (36, "A`2[[B],»,[C]]"),
    (36, "A`2[[B],»C]"),
    (36, "A`2[[B],[C]»,[D]]"),
    (36, "A`2[[B],[C]»-"),
    (36, "A`1[[B`1»]]"),
    (36, "A`1[[B`1[»]]]]"),
    (36, "A`1[[B`1[[C]»,[D]]]]"),
    // "or followed by a wrong byte"
    (36, "A`1[[B]]»]"),
    (36, "A`1[[B]]»["),
    (36, "A`1[[B]]»A"),
    (36, "A`1[[B]]» , c"),
    (36, "A`1[[B]]»`1[[C]]"),
    (36, "A`2[[B],[C]]»]"),
    (36, "A`1[[B`1[[C]]»x]]"),
    (36, "A`1[[B`1[[C]]»[D]]]"),
    (36, "A`1[[B`1[[C]]]]»]]"),
    // "the name's end if it ends too soon (36 if a bracket is due there)"
    (36, "A`1»"),
    (36, "A`2»"),
    (36, "A`1[»"),
    (36, "A`1[[B»"),
    (36, "A`1[[B,»"),
    (36, "A`1[[B, c»"),
    (36, "A`1[[B]»"),
    (36, "A`2[[B]»"),
    (36, "A`2[[B],»"),
    (36, "A`2[[B],[C»"),
    (36, "A`2[[B],[C,»"),
    (36, "A`2[[B],[C]»"),
    (36, "A`1[[B`1»"),
    (36, "A`1[[B`1[»"),
    (36, "A`1[[B`1[[C»"),
    (36, "A`1[[B`1[[C]»"),
    (36, "A`1[[B`1[[C]]»"),
    (36, "A`1[[B`1[[C]], d»"),
    (36, "A`1[[B`1[[C]]]»"),
    // "bad byte in a tail", nested or not, a bracket too.
    (37, "A,»["),
    (37, "A,»]"),
    (37, "A, b»\t"),
    (37, "A, b»\u{7F}"),
    (37, "A,`1»[[B]]"),
    (37, "A`1[[B]],»]"),
    (37, "A`1[[B]], c»\u{1F}"),
    (37, "A`1[[B,»[C]]]"),
    (37, "A`1[[B, c»[d]]"),
    (37, "A`1[[B, c»\r]]"),
    (37, "A`1[[B`1[[C]], d»é]]"),
    (37, "A`2[[B, c»\0],[D]]"),
    (37, "A`2[[B],[C, d»[]]"),
    // The leftmost place decides.
    (33, "»-`3[[]]"),
    (34, "A»-`3[[]]"),
    (35, "A`»3[[]], é"),
    (36, "A`1»-[[]], é"),
    (33, "A`1[[»]-, é"),
    (36, "A`1[[B]»-, é"),
    (37, "A`1[[B,»[]-"),
    // Grammar comes before heads, however far left the head stands.
    (33, "Unknown`1[[»"),
    (34, "Unknown»-"),
    (36, "Unknown`2[[Unknown],[Unknown]»"),
    (37, "Unknown, »]"),
    // "for a wrong count its owner's", which stands before its arguments.
    (11, "»Unknown`1[[Unknown]]"),
    (11, "»Microsoft.Xna.Framework.Content.ListReader`2[[Unknown],[Unknown]]"),
    (11, "»Microsoft.Xna.Framework.Content.DictionaryReader`1[[Unknown]]"),
    (11, "Microsoft.Xna.Framework.Content.ListReader`1[[»System.Collections.Generic.Dictionary`1[[Unknown]]]]"),
    (11, "Microsoft.Xna.Framework.Content.ListReader`1[[»System.Collections.Generic.List`2[[Unknown],[System.Byte]]]]"),
    (11, "Microsoft.Xna.Framework.Content.ListReader`1[[System.Collections.Generic.List`1[[»System.Byte`1[[Unknown]]]]]]"),
    // "for an unlawful argument the argument's own"
    (11, "Microsoft.Xna.Framework.Content.DictionaryReader`2[[»Unknown],[Other]]"),
    (11, "Microsoft.Xna.Framework.Content.DictionaryReader`2[[System.Byte, a, b],[»Unknown, c]], d"),
    (11, "Microsoft.Xna.Framework.Content.DictionaryReader`2[[System.Collections.Generic.List`1[[»Unknown]]],[Other]]"),
    (11, "Microsoft.Xna.Framework.Content.DictionaryReader`2[[System.Nullable`1[[»System.String]]],[Unknown]]"),
    (11, "Microsoft.Xna.Framework.Content.DictionaryReader`2[[System.Nullable`1[[System.Byte]]],[»Unknown]]"),
    (11, "Microsoft.Xna.Framework.Content.NullableReader`1[[»System.Nullable`1[[System.String]]]]"),
    (11, "Microsoft.Xna.Framework.Content.NullableReader`1[[»System.Nullable]]"),
    (11, "Microsoft.Xna.Framework.Content.NullableReader`1[[»System.Collections.Generic.List`1[[Unknown]]]]"),
    (11, "Microsoft.Xna.Framework.Content.ArrayReader`1[[System.Nullable`1[[»System.Nullable`1[[System.String]]]]]]"),
    (11, "Microsoft.Xna.Framework.Content.EnumReader`1[[»System.Int32`1[[Unknown]]]]"),
    (11, "Microsoft.Xna.Framework.Content.EnumReader`1[[»Coach.Door`2[[A],[B]]]]"),
    (11, "Microsoft.Xna.Framework.Content.EnumReader`1[[»System.Nullable`1[[System.Byte]]]]"),
];

/// What stands at level 8, behind seven names with open brackets; its arguments start level 9.
const AT_LEVEL_8: &[(u32, &str)] = &[
    (33, "»"),
    (33, "»]"),
    (34, "B»-"),
    (35, "B`»"),
    (35, "B`»3"),
    (36, "B»"),
    (36, "B`1»"),
    (36, "B`1»-"),
    (36, "B`1[»"),
    (36, "B`2[»]"),
    (37, "B,»["),
    // "a level-9 part is faulted where it starts, even at the name's end"
    (38, "B`1[[»"),
    (38, "B`2[[»"),
    (38, "B`1[[»C"),
    (38, "B`1[[»C]]"),
    (38, "B`1[[»C`1[[D]]]]"),
    (38, "B`1[[»C`9"),
    // "at one place 38 and then the lowest number"
    (38, "B`1[[»]"),
    (38, "B`1[[»-"),
    (38, "B`2[[»,"),
    (38, "B`1[[»[["),
];

/// The tables, each fault at levels 8 and 9, and lists of so many levels.
pub fn all() -> Vec<Judged> {
    let of = |(number, marked): &(u32, &str)| judged(*number, marked);
    let mut names: Vec<Judged> = TABLE.iter().map(of).collect();
    for (number, marked) in AT_LEVEL_8 {
        names.push(judged(*number, &format!("{}{marked}", "A`1[[".repeat(7))));
    }
    // The same in a second argument.
    let second = "A`2[[B],[".to_string() + &"A`1[[".repeat(6);
    names.push(judged(36, &format!("{second}C»")));
    names.push(judged(38, &format!("{second}C`2[[»D],[E]]")));
    names.push(judged(11, &lists(8, "»Unknown")));
    names.push(judged(38, &lists(9, "»System.Byte")));
    names.push(judged(38, &lists(9, "»Unknown")));
    let three_more = "»A`1[[B`1[[C`1[[D]]]]]]";
    names.push(judged(38, &lists(9, three_more)));
    names
}

/// Lists in lists, with the innermost argument at this level.
fn lists(level: usize, innermost: &str) -> String {
    nested(level).replace("System.Byte", innermost)
}
