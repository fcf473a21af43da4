//! A slow judge of names: the grammar of 01 as rules, and a search through all that they can write.
//!
//! It shares nothing with a parser. A form is what is still to be written; a rule replaces the first symbol of a form.
//! Every form can be completed, so bytes that some form has written begin some name.

use std::collections::BTreeSet;

/// One symbol of a form.
#[derive(Clone, Copy, Debug, PartialEq, Eq, PartialOrd, Ord)]
enum Symbol {
    /// A name at a level, without a limit on levels.
    Name(u32),
    MoreHead,
    Arguments(u32),
    Tail,
    MoreTail,
    Byte(Kind),
}

use Symbol::{Arguments, Byte, MoreHead, MoreTail, Name, Tail};

/// Which bytes may be written, and as what.
#[derive(Clone, Copy, Debug, PartialEq, Eq, PartialOrd, Ord)]
enum Kind {
    FirstOfHead,
    Head,
    Backquote,
    Digit(u8),
    /// A bracket, or the comma between arguments.
    Bracket(u8),
    CommaOfTail,
    Tail,
}

impl Kind {
    fn takes(self, byte: u8) -> bool {
        match self {
            // "The head is one or more ASCII letters, digits, `.`, `_`, `+`."
            Kind::FirstOfHead | Kind::Head => {
                matches!(byte, b'A'..=b'Z' | b'a'..=b'z' | b'0'..=b'9' | b'.' | b'_' | b'+')
            }
            Kind::Backquote => byte == b'`',
            Kind::Digit(digit) => byte == digit,
            Kind::Bracket(bracket) => byte == bracket,
            Kind::CommaOfTail => byte == b',',
            // "The tail is zero or more bytes 20 to 7E hex without brackets."
            Kind::Tail => matches!(byte, 0x20..=0x5A | 0x5C | 0x5E..=0x7E),
        }
    }
}

const OPEN: Symbol = Byte(Kind::Bracket(b'['));
const CLOSE: Symbol = Byte(Kind::Bracket(b']'));
const COMMA: Symbol = Byte(Kind::Bracket(b','));

/// What a symbol may be replaced by; a byte has no rule.
fn rules(symbol: Symbol) -> Vec<Vec<Symbol>> {
    let digit = |digit| [Byte(Kind::Backquote), Byte(Kind::Digit(digit))];
    match symbol {
        // "A name is a head, perhaps a backquote, one digit and bracketed arguments, then perhaps a comma and a tail."
        Name(level) => vec![vec![
            Byte(Kind::FirstOfHead),
            MoreHead,
            Arguments(level),
            Tail,
        ]],
        MoreHead => vec![vec![], vec![Byte(Kind::Head), MoreHead]],
        // "Arguments stand as `[[A]]` or `[[A],[B]]`, as many as the digit (1 or 2) says."
        Arguments(level) => {
            let argument = [OPEN, Name(level + 1), CLOSE];
            let one = [&digit(b'1')[..], &[OPEN], &argument, &[CLOSE]].concat();
            let two = [
                &digit(b'2')[..],
                &[OPEN],
                &argument,
                &[COMMA],
                &argument,
                &[CLOSE],
            ]
            .concat();
            vec![vec![], one, two]
        }
        Tail => vec![vec![], vec![Byte(Kind::CommaOfTail), MoreTail]],
        MoreTail => vec![vec![], vec![Byte(Kind::Tail), MoreTail]],
        Byte(_) => vec![],
    }
}

/// What is still to be written, its first symbol last.
type Form = Vec<Symbol>;

/// All forms that start with a byte or are empty, and the levels of the names that they start.
fn expanded(forms: BTreeSet<Form>) -> (BTreeSet<Form>, BTreeSet<u32>) {
    let mut ready = BTreeSet::new();
    let mut levels = BTreeSet::new();
    let mut open: Vec<Form> = forms.into_iter().collect();
    while let Some(mut form) = open.pop() {
        let first = match form.last() {
            None | Some(Byte(_)) => {
                ready.insert(form);
                continue;
            }
            Some(first) => *first,
        };
        if let Name(level) = first {
            levels.insert(level);
        }
        form.pop();
        for rule in rules(first) {
            let mut next = form.clone();
            next.extend(rule.into_iter().rev());
            open.push(next);
        }
    }
    (ready, levels)
}

/// What is judged of a name.
#[derive(Clone, Debug, PartialEq, Eq)]
pub struct Verdict {
    /// The number and place of the fault, or nothing for a well-formed name.
    pub fault: Option<(u32, usize)>,
    /// The shortest bytes that complete what stands before the place to a name, levels apart.
    pub completion: Vec<u8>,
}

/// Judges a name: "the leftmost place decides, at one place 38 and then the lowest number".
pub fn judge(name: &[u8]) -> Verdict {
    judge_within(8, name)
}

/// Whether a name keeps every rule of the grammar but the limit on levels.
pub fn is_name_but_for_levels(name: &[u8]) -> bool {
    judge_within(u32::MAX, name).fault.is_none()
}

fn judge_within(deepest: u32, name: &[u8]) -> Verdict {
    let mut forms = BTreeSet::from([vec![Name(1)]]);
    for place in 0..=name.len() {
        let (ready, levels) = expanded(forms);
        let completion = completion(&ready);
        // "a level-9 part is faulted where it starts, even at the name's end"
        if levels.iter().any(|level| *level > deepest) {
            let fault = Some((38, place));
            return Verdict { fault, completion };
        }
        let taken = |byte: u8| -> BTreeSet<Form> {
            let of = |form: &Form| match form.split_last() {
                Some((Byte(kind), rest)) if kind.takes(byte) => Some(rest.to_vec()),
                _ => None,
            };
            ready.iter().filter_map(of).collect()
        };
        let next = name.get(place).map(|byte| taken(*byte));
        let ends_well = next.is_none() && ready.contains(&vec![]);
        forms = match next {
            Some(next) if !next.is_empty() => next,
            _ => {
                let number = number(&ready, place == name.len());
                let fault = (!ends_well).then_some((number, place));
                return Verdict { fault, completion };
            }
        };
    }
    unreachable!("the name's end is judged")
}

/// The number of a fault, by what could have stood there.
fn number(ready: &BTreeSet<Form>, at_end: bool) -> u32 {
    let due = |kind: fn(Kind) -> bool| {
        let of = |form: &Form| matches!(form.last(), Some(Byte(it)) if kind(*it));
        ready.iter().any(of)
    };
    let bracket_due = due(|kind| matches!(kind, Kind::Bracket(_)));
    match () {
        // "the name's end if it ends too soon (36 if a bracket is due there)"
        () if at_end && bracket_due => 36,
        () if due(|kind| kind == Kind::FirstOfHead) => 33,
        () if due(|kind| kind == Kind::Head) => 34,
        () if due(|kind| matches!(kind, Kind::Digit(_))) => 35,
        () if due(|kind| kind == Kind::Tail) => 37,
        () => 36,
    }
}

/// The shortest bytes that some form can still write.
fn completion(forms: &BTreeSet<Form>) -> Vec<u8> {
    let completions = forms.iter().map(|form| {
        let mut bytes = Vec::new();
        for symbol in form.iter().rev() {
            bytes.extend(shortest(*symbol));
        }
        bytes
    });
    completions.min_by_key(Vec::len).expect("some form is left")
}

fn shortest(symbol: Symbol) -> Vec<u8> {
    match symbol {
        Name(_) | Byte(Kind::FirstOfHead | Kind::Head | Kind::Tail) => b"x".to_vec(),
        MoreHead | Arguments(_) | Tail | MoreTail => vec![],
        Byte(Kind::Backquote) => vec![b'`'],
        Byte(Kind::Digit(byte) | Kind::Bracket(byte)) => vec![byte],
        Byte(Kind::CommaOfTail) => vec![b','],
    }
}
