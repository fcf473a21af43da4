//! What an export may have at a place of XML.

use std::fmt::{self, Display, Formatter};

const START: &str = r#"<?xml version="1.0" encoding="utf-8"?><XnaContent><Asset Type="string[]">"#;
const ITEM: &str = "<Item>";
const ITEM_END: &str = "</Item>";
const END: &str = "</Asset></XnaContent>";
const ENTITIES: [&str; 4] = ["&amp;", "&lt;", "&gt;", "&quot;"];
/// A longer rest of the markup is shown up to here.
const LONGEST_SHOWN: usize = 24;

/// What may be at a place of XML, all before it being as an export writes it.
#[derive(Clone, Copy, Debug, PartialEq, Eq)]
pub enum Expected {
    /// The rest of this markup or entity.
    Markup {
        /// The markup or entity.
        whole: &'static str,
        /// How many of its bytes are before the place.
        before: usize,
    },
    /// The rest of `<Item>` or of `</Asset></XnaContent>`.
    ItemOrEnd {
        /// How many of its bytes are before the place.
        before: usize,
    },
    /// A character, an entity or `</Item>`.
    Text,
    /// `amp;`, `lt;`, `gt;` or `quot;`, behind an ampersand.
    Entity,
    /// The rest of a character.
    Character {
        /// How many of its bytes are before the place.
        before: usize,
    },
    /// Nothing more.
    End,
}

use Expected::*;

impl Expected {
    /// What may be at a place that an import refuses with [`NotExported`](crate::Refusal::NotExported).
    pub fn at(xml: impl AsRef<[u8]>, place: usize) -> Expected {
        let xml = xml.as_ref();
        let before = &xml[..place.min(xml.len())];
        let Some(mut rest) = before.strip_prefix(START.as_bytes()) else {
            return markup(START, before);
        };
        loop {
            if begins(ITEM, rest) && begins(END, rest) {
                return ItemOrEnd { before: rest.len() };
            }
            if rest == END.as_bytes() {
                return End;
            }
            if begins(END, rest) {
                return markup(END, rest);
            }
            let Some(text) = rest.strip_prefix(ITEM.as_bytes()) else {
                return markup(ITEM, rest);
            };
            let Some(end) = text.iter().position(|byte| *byte == b'<') else {
                return in_text(text);
            };
            let Some(next) = text[end..].strip_prefix(ITEM_END.as_bytes()) else {
                return markup(ITEM_END, &text[end..]);
            };
            rest = next;
        }
    }
}

fn begins(whole: &str, start: &[u8]) -> bool {
    whole.as_bytes().starts_with(start)
}

fn markup(whole: &'static str, before: &[u8]) -> Expected {
    let before = before.len();
    Markup { whole, before }
}

/// What may follow this start of a text.
fn in_text(start: &[u8]) -> Expected {
    let last = start
        .iter()
        .rposition(|byte| *byte == b'&' || *byte == b';');
    if let Some(last) = last.filter(|last| start[*last] == b'&') {
        let entity = &start[last..];
        // No two entities have the same second byte.
        let begun = ENTITIES.into_iter().find(|it| begins(it, entity));
        return match begun {
            Some(whole) if entity.len() > 1 => markup(whole, entity),
            _ => Entity,
        };
    }
    match std::str::from_utf8(start) {
        Ok(_) => Text,
        Err(error) => Character {
            before: start.len() - error.valid_up_to(),
        },
    }
}

/// The first bytes of a rest of the markup.
fn shortened(rest: &str) -> String {
    match rest.get(..LONGEST_SHOWN) {
        Some(start) if rest.len() > LONGEST_SHOWN => format!("{start}..."),
        _ => rest.to_string(),
    }
}

impl Display for Expected {
    fn fmt(&self, out: &mut Formatter) -> fmt::Result {
        match *self {
            Markup { whole, before: 0 } => write!(out, "{}", shortened(whole)),
            Markup { whole, before } => {
                let (before, rest) = whole.split_at(before);
                let from = before.rfind('<').unwrap_or(0);
                write!(out, "{} behind {}", shortened(rest), &before[from..])
            }
            ItemOrEnd { before: 0 } => write!(out, "{ITEM} or {END}"),
            ItemOrEnd { before } => {
                write!(out, "{} or {} behind <", &ITEM[before..], &END[before..])
            }
            Text => write!(out, "a character, {} or {ITEM_END}", ENTITIES.join(" ")),
            Entity => write!(out, "amp; lt; gt; or quot; behind &"),
            Character { before: 1 } => {
                write!(out, "the rest of a character, behind its first byte")
            }
            Character { before } => {
                write!(
                    out,
                    "the rest of a character, behind its first {before} bytes"
                )
            }
            End => write!(out, "nothing more"),
        }
    }
}
