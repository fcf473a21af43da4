//! Files to be exported as XML.

use super::texts::{bad_character, some_text, some_texts, xml_of};
use super::{refused, XmlKnown};
use crate::enums::{bytes_of, damaged, some_enums, with_enums, Listed};
use crate::maker::{make, Planted};
use crate::random::Random;
use crate::shape::{Shape, ARRAY, STRING};
use crate::{blind, some_words};
use corpus::readers::{array_of, list_of};
use corpus::values::*;
use corpus::writer::{set_length, write, File, Value, Written, WORDS_PER_ROW};

/// A file to be exported with so many lent words and a list of enums.
#[derive(Clone, Debug)]
pub struct ExportCase {
    pub bytes: Vec<u8>,
    pub enums: Vec<u8>,
    pub words: usize,
    /// What every program must answer with room for it, if that is known without one.
    pub known: Option<XmlKnown>,
}

/// The case of a seed: a list of texts, another file, or a list with a known fault or damaged at random.
pub fn case(seed: u64) -> ExportCase {
    let mut random = Random::new(seed);
    let enums = match random.below(3) {
        0 => some_enums(&mut random),
        _ => vec![],
    };
    let maker = Maker {
        random: &mut random,
        enums: &enums,
    };
    match seed % 10 {
        0..=1 => maker.lawful(),
        2 => maker.with_shared_objects(),
        3 => maker.other_primary(),
        4 => maker.other_file(),
        5..=6 => maker.with_a_bad_text(),
        7 => maker.with_a_refused_list(),
        8 => maker.with_a_load_fault(),
        _ => maker.damaged(),
    }
}

struct Maker<'r> {
    random: &'r mut Random,
    enums: &'r [Listed],
}

/// What stands for a text: no string is a null.
type Text = Option<String>;

/// The target of the reader that a list of texts needs.
fn text_list() -> Shape {
    Shape::of(ARRAY, Shape::plain(STRING))
}

const LONGEST_NAME: usize = 1024;

impl Maker<'_> {
    /// The array of texts in a file: two readers and perhaps others in any order, any of the String readers for a
    /// text, any platform and flags, some numbers padded.
    fn file(&mut self, texts: &[Text], shared: Vec<Value>) -> File {
        let mut shapes = Vec::new();
        let mut names = Vec::new();
        let further = self.random.pick(&[0, 0, 0, 1, 3]);
        for number in 0..2 + further {
            let (shape, name) = match number {
                0 => self.named(Shape::plain(STRING)),
                1 => self.named(text_list()),
                _ => self.further_reader(),
            };
            let place = self.random.below(names.len() + 1);
            shapes.insert(place, shape);
            names.insert(place, name);
        }
        let ids_of = |target: Shape| {
            let ids = (1..).zip(&shapes).filter(|(_, shape)| **shape == target);
            ids.map(|(id, _)| id).collect::<Vec<u32>>()
        };
        let (text_ids, list_ids) = (ids_of(Shape::plain(STRING)), ids_of(text_list()));
        let elements = texts.iter().map(|it| self.text(it, &text_ids)).collect();
        let primary = object(self.random.pick(&list_ids), array(elements));
        let mut file = file(&names, primary, shared);
        file.start[3] = self.random.pick(b"wwmx");
        file.start[5] = self.random.pick(&[0, 0, 1]);
        if self.random.chance(30) {
            let random = &mut *self.random;
            file.each_seven(&mut |_, seven| seven.width = random.below(6));
        }
        file
    }

    /// A target and the name of its reader, with any tails.
    fn named(&mut self, shape: Shape) -> (Shape, String) {
        let name = shape.reader_name(self.random);
        (shape, name)
    }

    /// Another reader, or once more one of the two that are needed.
    fn further_reader(&mut self) -> (Shape, String) {
        loop {
            let any = Shape::any(self.random);
            let shape = match self.random.below(3) {
                0 => Shape::plain(STRING),
                1 => text_list(),
                _ => with_enums(self.random, any, self.enums),
            };
            let (shape, name) = self.named(shape);
            if name.len() <= LONGEST_NAME {
                return (shape, name);
            }
        }
    }

    /// A text by one of these readers, or null.
    fn text(&mut self, of: &Text, ids: &[u32]) -> Value {
        match of {
            Some(characters) => bound_object(self.random.pick(ids), text(characters)),
            None => null(),
        }
    }

    fn texts(&mut self) -> Vec<Text> {
        some_texts(self.random).into_iter().map(Some).collect()
    }

    fn case(&mut self, written: Written, known: Option<XmlKnown>) -> ExportCase {
        ExportCase {
            words: some_words(self.random, written.rows.len()),
            bytes: written.bytes,
            enums: bytes_of(self.enums),
            known,
        }
    }

    /// A list of texts that can be written.
    fn lawful(mut self) -> ExportCase {
        let texts = some_texts(self.random);
        let xml = xml_of(&texts);
        let texts: Vec<Text> = texts.into_iter().map(Some).collect();
        let file = self.file(&texts, vec![]);
        self.case(write(&file), Some(XmlKnown::Written(xml)))
    }

    /// 61: shared objects, whatever the texts are.
    fn with_shared_objects(mut self) -> ExportCase {
        let mut texts = self.texts();
        self.spoil(&mut texts, 0);
        let count = 1 + self.random.below(3);
        let file = self.file(&texts, vec![null(); count]);
        let written = write(&file);
        let place = written.rows[0][1] as usize;
        self.case(written, refused(61, place))
    }

    /// 61: a primary that differs from an Array of String in one thing.
    fn other_primary(mut self) -> ExportCase {
        let string = || Shape::plain(STRING).reader_head();
        let texts = self.texts();
        let texts: Vec<Value> = texts.iter().map(|it| self.text(it, &[2])).collect();
        let (readers, primary) = match self.random.below(6) {
            0 => (vec![], null()),
            1 => (vec![string()], object(1, text("a"))),
            2 => (
                vec![list_of("System.String"), string()],
                object(1, list(texts)),
            ),
            3 => (
                vec![array_of("System.Object"), string()],
                object(1, array(texts)),
            ),
            4 => (
                vec![array_of("System.Char")],
                object(1, array(vec![character('a'); texts.len()])),
            ),
            _ => (
                vec![array_of("System.Object"), array_of("System.String")],
                object(1, array(vec![object(2, array(vec![]))])),
            ),
        };
        let written = write(&file(&readers, primary, vec![]));
        let place = written.rows[0][1] as usize;
        self.case(written, refused(61, place))
    }

    /// 61 for any other lawful file.
    fn other_file(mut self) -> ExportCase {
        let made = make(self.random, Planted::Nothing, self.enums);
        let written = write(&made.file);
        let [kind, place, .., detail, _] = written.rows[0];
        let is_list = kind == ARRAY
            && made.targets[detail as usize - 1].arguments == [Shape::plain(STRING)]
            && written.shared == 0;
        let known = refused(61, place as usize).filter(|_| !is_list);
        self.case(written, known)
    }

    /// 62 and 63: the first text that is null or has a bad character decides.
    fn with_a_bad_text(mut self) -> ExportCase {
        let mut texts = self.texts();
        texts.push(Some(String::new()));
        let first = self.random.below(texts.len());
        self.spoil(&mut texts, first + 1);
        let number = if self.random.chance(50) {
            texts[first] = None;
            62
        } else {
            texts[first] = Some(self.bad_text());
            63
        };
        let file = self.file(&texts, vec![]);
        self.case(write(&file), refused(number, first + 1))
    }

    /// Puts nulls and bad characters among the texts from this one on.
    fn spoil(&mut self, texts: &mut [Text], from: usize) {
        let often = self.random.pick(&[0, 20, 100]);
        for text in &mut texts[from..] {
            if self.random.chance(often) {
                *text = self.random.chance(50).then(|| self.bad_text());
            }
        }
    }

    /// A text with a bad character at any place.
    fn bad_text(&mut self) -> String {
        let before = some_text(self.random);
        let behind = some_text(self.random);
        format!("{before}{}{behind}", bad_character(self.random))
    }

    /// 32 before all else.
    fn with_a_refused_list(self) -> ExportCase {
        let enums = some_enums(self.random);
        let list = damaged(self.random, &enums);
        let mut case = match self.random.below(3) {
            0 => self.lawful(),
            1 => self.with_a_bad_text(),
            _ => self.damaged(),
        };
        case.enums = list.bytes;
        case.known = refused(32, list.entry);
        case
    }

    /// 19 and 20 before 61 to 63.
    fn with_a_load_fault(mut self) -> ExportCase {
        let mut texts = self.texts();
        self.spoil(&mut texts, 0);
        let shared = vec![null(); self.random.below(2)];
        let written = write(&self.file(&texts, shared));
        if self.random.chance(50) {
            let row = self.random.below(written.rows.len());
            let place = written.rows[row][1] as usize;
            let mut case = self.case(written, refused(19, place));
            case.words = WORDS_PER_ROW * row + self.random.below(WORDS_PER_ROW);
            return case;
        }
        let place = written.bytes.len();
        let mut case = self.case(written, refused(20, place));
        let count = 1 + self.random.below(9);
        case.bytes.extend(self.random.bytes(count));
        set_length(&mut case.bytes, 0);
        case
    }

    fn damaged(mut self) -> ExportCase {
        let mut texts = self.texts();
        if self.random.chance(30) {
            self.spoil(&mut texts, 0);
        }
        let mut written = write(&self.file(&texts, vec![]));
        written.bytes = blind::damaged(self.random, &written);
        self.case(written, None)
    }
}

/// A case with a name.
pub struct ExportLimit {
    pub name: String,
    pub case: ExportCase,
}

/// Each character beside a bound, texts whose count gets a byte more, the most rows, and a long XML.
pub fn limits() -> Vec<ExportLimit> {
    let mut limits = Vec::new();
    for code in characters() {
        let Some(character) = char::from_u32(code) else {
            continue;
        };
        let text = format!("a{character}b");
        let bad = code < 0x20 || code == 0xFFFE || code == 0xFFFF;
        let known = if bad {
            refused(63, 1)
        } else {
            Some(XmlKnown::Written(xml_of(&[&text])))
        };
        limits.push(limit(format!("U+{code:04X}"), &[text], known));
    }
    for length in [0, 1, 127, 128, 16_383, 16_384, 2_097_151, 2_097_152] {
        for (character, name) in [('x', "letters"), ('"', "entities")] {
            let texts = [character.to_string().repeat(length)];
            let known = Some(XmlKnown::Written(xml_of(&texts)));
            limits.push(limit(format!("{length} {name}"), &texts, known));
        }
    }
    let most = vec![""; 65_535];
    let known = XmlKnown::Written(xml_of(&most));
    limits.push(limit("65,535 texts", &most, Some(known)));
    let mut no_room = limit("65,535 texts, no room for the last", &most, None);
    no_room.case.words -= 1;
    no_room.case.known = refused(19, no_room.case.bytes.len() - 2);
    limits.push(no_room);
    limits
}

/// A file of texts with just the words that it needs.
fn limit<T: AsRef<str>>(
    name: impl Into<String>,
    texts: &[T],
    known: Option<XmlKnown>,
) -> ExportLimit {
    let case = ExportCase {
        bytes: super::file_of(texts),
        enums: vec![],
        words: WORDS_PER_ROW * (texts.len() + 1),
        known,
    };
    let name = name.into();
    ExportLimit { name, case }
}

/// Code points around every bound.
fn characters() -> Vec<u32> {
    let bounds = [
        0x80, 0x800, 0xD800, 0xE000, 0xFDD0, 0xFEFF, 0x1_0000, 0x4_0000, 0x10_0000,
    ];
    let mut codes: Vec<u32> = (0..=0x40).collect();
    for bound in bounds {
        codes.extend(bound - 3..bound + 3);
    }
    for plane in 1..=0x10 {
        codes.extend([plane << 16 | 0xFFFE, plane << 16 | 0xFFFF]);
    }
    codes
}
