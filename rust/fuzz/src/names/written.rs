//! Well-formed names written from left to right, with what is due at each place.

use super::{NameFault, Wrong};
use crate::random::Random;

pub const DEEPEST_LEVEL: u32 = 8;

/// What may stand at a place of a name.
#[derive(Clone, Copy, Debug, PartialEq, Eq)]
pub enum Due {
    /// The first byte of a head at a level.
    Head(u32),
    /// What follows one head byte or more.
    BehindHead { nested: bool },
    /// The digit behind a backquote.
    Digit,
    /// A bracket, or the comma between arguments.
    Bracket(u8),
    /// What follows the brackets around arguments.
    BehindBrackets { nested: bool },
    /// What follows the comma of a tail.
    InTail { nested: bool },
}

impl Due {
    fn takes(self, byte: u8) -> bool {
        let head = byte.is_ascii_alphanumeric() || b"._+".contains(&byte);
        let tail = (0x20..0x7F).contains(&byte) && !b"[]".contains(&byte);
        match self {
            Due::Head(_) => head,
            Due::BehindHead { nested } => head || b"`,".contains(&byte) || nested && byte == b']',
            Due::Digit => b"12".contains(&byte),
            Due::Bracket(due) => byte == due,
            Due::BehindBrackets { nested } => byte == b',' || nested && byte == b']',
            Due::InTail { nested } => tail || nested && byte == b']',
        }
    }

    /// The refusal of a byte that may not stand here.
    fn number(self) -> u32 {
        match self {
            Due::Head(_) => 33,
            Due::BehindHead { .. } => 34,
            Due::Digit => 35,
            Due::Bracket(_) | Due::BehindBrackets { .. } => 36,
            Due::InTail { .. } => 37,
        }
    }

    /// The refusal of a name that ends here, unless it may.
    fn number_of_end(self) -> Option<u32> {
        match self {
            Due::Head(_) => Some(33),
            Due::Digit => Some(35),
            Due::Bracket(_) => Some(36),
            Due::BehindHead { nested }
            | Due::BehindBrackets { nested }
            | Due::InTail { nested } => nested.then_some(36),
        }
    }

    /// A byte that may not stand here.
    fn wrong_byte(self, random: &mut Random) -> u8 {
        loop {
            let byte = match random.below(4) {
                0 => random.byte(),
                1 => random.pick(b"[]`,"),
                2 => random.pick(b"-/:@ ^{\x7F\x1F\0\xC3"),
                _ => random.pick(b"[],`0123Az_."),
            };
            if !self.takes(byte) {
                return byte;
            }
        }
    }
}

/// A well-formed name, levels apart.
pub struct Written {
    pub bytes: Vec<u8>,
    /// What is due at each place, the name's end too.
    pub due: Vec<Due>,
}

/// Writes a name with random heads, of so many levels at most.
pub fn write(random: &mut Random, levels: u32) -> Written {
    let mut writer = Writer {
        random,
        bytes: Vec::new(),
        due: Vec::new(),
        next: Due::Head(1),
    };
    writer.name(1, levels);
    writer.due.push(writer.next);
    Written {
        bytes: writer.bytes,
        due: writer.due,
    }
}

struct Writer<'r> {
    random: &'r mut Random,
    bytes: Vec<u8>,
    due: Vec<Due>,
    next: Due,
}

impl Writer<'_> {
    fn byte(&mut self, byte: u8, next: Due) {
        self.due.push(self.next);
        self.bytes.push(byte);
        self.next = next;
    }

    /// A name; deep ones are as likely as flat ones.
    fn name(&mut self, level: u32, levels: u32) {
        let nested = level > 1;
        let heads: [&[u8]; 6] = [
            b"A",
            b"12",
            b"._+",
            b"System.Byte",
            b"Coach.Console.PageReader",
            b"Microsoft.Xna.Framework.Content.ListReader",
        ];
        for byte in self.random.pick(&heads) {
            self.byte(*byte, Due::BehindHead { nested });
        }
        if level < levels {
            self.arguments(level, levels);
        }
        if self.random.chance(25) {
            let tails: [&[u8]; 4] = [b",", b", mscorlib", b",`1,2 ~", b",,"];
            for byte in self.random.pick(&tails) {
                self.byte(*byte, Due::InTail { nested });
            }
        }
    }

    /// One or two arguments; only one of them goes on to the deepest level.
    fn arguments(&mut self, level: u32, levels: u32) {
        let count = self.random.between(1, 2);
        let deep = self.random.between(1, count);
        self.byte(b'`', Due::Digit);
        self.byte(b'0' + count as u8, Due::Bracket(b'['));
        self.byte(b'[', Due::Bracket(b'['));
        for argument in 1..=count {
            let levels = if argument == deep { levels } else { level + 1 };
            self.byte(b'[', Due::Head(level + 1));
            self.name(level + 1, levels);
            let next = if argument < count { b',' } else { b']' };
            self.byte(b']', Due::Bracket(next));
            if argument < count {
                self.byte(b',', Due::Bracket(b'['));
            }
        }
        self.byte(b']', Due::BehindBrackets { nested: level > 1 });
    }
}

/// A name with one fault, or several of which the leftmost is known.
pub fn with_fault(random: &mut Random) -> (Vec<u8>, Wrong) {
    let levels = random.pick(&[1, 2, 2, 3, 3, 5, 8, 8, 9, 10]);
    let written = write(random, levels);
    let mut place = random.below(written.due.len());
    let mut name = written.bytes[..place].to_vec();
    let due = written.due[place];
    let mut number = due.number();
    let mut fault = NameFault::NotDue(due);
    match due.number_of_end() {
        Some(of_end) if random.chance(25) => number = of_end,
        _ => {
            name.push(due.wrong_byte(random));
            name.extend(rest(random, &written.bytes[place..]));
        }
    }
    let past_8 = |due: &Due| matches!(due, Due::Head(level) if *level > DEEPEST_LEVEL);
    if let Some(level_9) = written.due[..=place].iter().position(past_8) {
        (number, place, fault) = (38, level_9, NameFault::TooDeep);
    }
    let length = name[place..].len().min(1);
    let wrong = Wrong {
        number,
        place,
        length,
        fault,
    };
    (name, wrong)
}

/// What follows a fault: nothing, the name as it was, or any bytes.
fn rest(random: &mut Random, written: &[u8]) -> Vec<u8> {
    match random.below(4) {
        0 => vec![],
        1 => written.get(1..).unwrap_or(&[]).to_vec(),
        2 => written.to_vec(),
        _ => {
            let count = random.below(9);
            (0..count).map(|_| random.pick(b"A1`[],- \0")).collect()
        }
    }
}
