//! Random files that break chosen rules of the driver's profile and no others.

use crate::enums::Listed;
use crate::random::Random;
use crate::shape::{self, Shape};
use corpus::enums::enum_of_size;
use corpus::readers::{
    array_of, dictionary_of, dictionary_target, enum_of, list_of, list_target, nullable_of,
    nullable_target, BYTE, INT32, OBJECT, PAGE, SINGLE, STRING, TEXTURE, TEXTURE2D,
};
use corpus::values::*;
use corpus::writer::{seven_bytes, File, Seven, Value};

/// What a reader makes.
#[derive(Clone, Debug, PartialEq, Eq)]
pub enum Target {
    Page,
    Text,
    Picture,
    Byte,
    Int32,
    /// An enum with this name and size.
    Enum(String, u8),
    NullableInt32,
    Bytes,
    Pages,
    Texts,
    Anything,
    /// Dictionaries by what they declare of their keys; values are declared Object or Byte.
    TextKeys,
    TextKeysToObjects,
    ObjectKeys,
    ByteKeys,
    /// Object, Texture and Single readers, which no object here is read by.
    Unused(&'static str),
}

impl Target {
    /// The name of its reader, without tails.
    fn name(&self) -> String {
        match self {
            Target::Page => PAGE.to_string(),
            Target::Text => STRING.to_string(),
            Target::Picture => TEXTURE2D.to_string(),
            Target::Byte => BYTE.to_string(),
            Target::Int32 => INT32.to_string(),
            Target::Enum(name, _) => enum_of(name),
            Target::NullableInt32 => nullable_of("System.Int32"),
            Target::Bytes => list_of("System.Byte"),
            Target::Pages => list_of("Coach.Console.Page"),
            Target::Texts => array_of("System.String"),
            Target::Anything => list_of("System.Object"),
            Target::TextKeys => dictionary_of("System.String", "System.Byte"),
            Target::TextKeysToObjects => dictionary_of("System.String", "System.Object"),
            Target::ObjectKeys => dictionary_of("System.Object", "System.Object"),
            Target::ByteKeys => dictionary_of("System.Byte", "System.Object"),
            Target::Unused(name) => name.to_string(),
        }
    }

    /// The type that its reader reads, in words.
    pub fn shown(&self) -> String {
        let plain = |kind: u32| Shape::plain(kind).target_head().to_string();
        match self {
            Target::Page => plain(shape::PAGE),
            Target::Text => plain(shape::STRING),
            Target::Picture => plain(shape::TEXTURE2D),
            Target::Byte => plain(1),
            Target::Int32 => plain(5),
            Target::Enum(name, _) => name.clone(),
            Target::NullableInt32 => nullable_target("System.Int32"),
            Target::Bytes => list_target("System.Byte"),
            Target::Pages => list_target("Coach.Console.Page"),
            Target::Texts => "System.String[]".to_string(),
            Target::Anything => list_target("System.Object"),
            Target::TextKeys => dictionary_target("System.String", "System.Byte"),
            Target::TextKeysToObjects => dictionary_target("System.String", "System.Object"),
            Target::ObjectKeys => dictionary_target("System.Object", "System.Object"),
            Target::ByteKeys => dictionary_target("System.Byte", "System.Object"),
            Target::Unused(OBJECT) => plain(shape::OBJECT),
            Target::Unused(TEXTURE) => plain(shape::TEXTURE),
            Target::Unused(_) => plain(9),
        }
    }
}

/// A listed reader.
pub struct Reader {
    pub target: Target,
    pub name: String,
    /// Whether some type id names it.
    pub used: bool,
}

/// A random file and its readers; the first later key of a dictionary is marked in it.
pub struct Made {
    pub file: File,
    pub readers: Vec<Reader>,
}

/// What a shared object is going to be, for those that references may name.
#[derive(Clone, Copy, PartialEq, Eq)]
enum Plan {
    Null,
    Page,
    Picture,
    Other,
}

struct Maker<'r> {
    random: &'r mut Random,
    targets: Vec<Target>,
    readers: Vec<Reader>,
    plans: Vec<Plan>,
    /// Whether dictionaries may repeat keys, and whether one did.
    repeats: bool,
    is_repeated: bool,
    /// Whether pages may have no next, and whether one has none.
    ends: bool,
    is_ended: bool,
}

/// Values inside values stand at most so deep.
const DEEPEST: u32 = 4;

/// A file under a lent list that breaks exactly these rules.
pub fn make(random: &mut Random, enums: &[Listed], offends: impl Fn(u32) -> bool) -> Made {
    let mut maker = Maker {
        targets: targets(random, enums),
        random,
        readers: Vec::new(),
        plans: Vec::new(),
        repeats: offends(45),
        is_repeated: false,
        ends: offends(47),
        is_ended: false,
    };
    maker.list_readers(offends(43), offends(44));
    maker.plan();
    let primary = maker.primary(offends(46));
    let mut shared = maker.planned_objects();
    maker.make_up(&mut shared, offends(43));
    let names: Vec<&str> = maker.readers.iter().map(|it| it.name.as_str()).collect();
    let mut file = file(&names, primary, shared);
    if offends(41) {
        file.start[3] = maker.random.pick(b"mx");
    }
    file.start[5] = maker.random.pick(&[0, 1]);
    if offends(42) {
        pad(maker.random, &mut file);
    }
    let readers = maker.readers;
    Made { file, readers }
}

/// All that objects may be, with enums of the lent list and others.
fn targets(random: &mut Random, enums: &[Listed]) -> Vec<Target> {
    let mut targets = vec![
        Target::Page,
        Target::Text,
        Target::Picture,
        Target::Byte,
        Target::Int32,
        Target::NullableInt32,
        Target::Bytes,
        Target::Pages,
        Target::Texts,
        Target::Anything,
        Target::TextKeys,
        Target::TextKeysToObjects,
        Target::ObjectKeys,
        Target::ByteKeys,
    ];
    // Names that differ in little; none of them is listed.
    for name in ["Coach.Door", "Coach.Door+State", "Coach.Dook"] {
        if !enums.iter().any(|listed| listed.name == name) {
            targets.push(Target::Enum(name.to_string(), 4));
        }
    }
    let listed = &enums[random.below(enums.len())];
    targets.push(Target::Enum(listed.name.clone(), listed.size));
    targets
}

/// Gives one number or some more bytes than they need.
fn pad(random: &mut Random, file: &mut File) {
    let mut numbers = 0;
    file.each_seven(&mut |_, _| numbers += 1);
    let chosen = random.below(numbers);
    let often = random.pick(&[0, 0, 5, 50]);
    let mut number = 0;
    file.each_seven(&mut |_, seven| {
        if number == chosen || random.chance(often) {
            let shortest = seven_bytes(Seven { width: 0, ..*seven }).len();
            seven.width = shortest + 1 + random.below(5 - shortest);
        }
        number += 1;
    });
}

impl Maker<'_> {
    fn any_target(&mut self) -> Target {
        let number = self.random.below(self.targets.len());
        self.targets[number].clone()
    }

    /// Readers that are listed before any object asks for one.
    fn list_readers(&mut self, unused: bool, equal: bool) {
        for _ in 0..self.random.below(5) {
            let target = self.any_target();
            if self.readers.iter().all(|reader| reader.target != target) {
                self.add_reader(target);
            }
        }
        if equal {
            for _ in 0..1 + self.random.below(2) {
                let target = self.any_target();
                self.add_reader(target.clone());
                self.add_reader(target);
            }
        }
        if unused {
            let names = [OBJECT, TEXTURE, SINGLE];
            let first = self.random.below(3);
            self.add_reader(Target::Unused(names[first]));
            if self.random.chance(30) {
                // With equal readers an unused one may be equal to the first.
                let second = if equal { first } else { (first + 1) % 3 };
                self.add_reader(Target::Unused(names[second]));
            }
        }
    }

    /// Puts a reader at any place of the list that no type id has named yet.
    fn add_reader(&mut self, target: Target) -> u32 {
        let mut name = target.name();
        if self.random.chance(20) {
            name = name.replace("]]", ", mscorlib]]");
        }
        name += self
            .random
            .pick(&["", "", ",", ", Coach", ", Coach, Version=1"]);
        let used = |reader: &Reader| reader.used;
        let first = self.readers.iter().rposition(used).map_or(0, |it| it + 1);
        let place = first + self.random.below(self.readers.len() + 1 - first);
        let used = false;
        self.readers.insert(place, Reader { target, name, used });
        place as u32 + 1
    }

    /// A type id of a reader with this target.
    fn type_id(&mut self, target: &Target) -> u32 {
        let mut ids = Vec::new();
        for (position, reader) in self.readers.iter().enumerate() {
            if reader.target == *target {
                ids.push(position as u32 + 1);
            }
        }
        if ids.is_empty() {
            ids.push(self.add_reader(target.clone()));
        }
        let id = self.random.pick(&ids);
        self.readers[id as usize - 1].used = true;
        id
    }

    fn plan(&mut self) {
        let count = 1 + self.random.below(5);
        for _ in 0..count {
            let plan = self.random.pick(&[
                Plan::Null,
                Plan::Page,
                Plan::Page,
                Plan::Picture,
                Plan::Other,
            ]);
            self.plans.push(plan);
        }
        // Every page that has a next finds one.
        self.plans.push(self.random.pick(&[Plan::Null, Plan::Page]));
    }

    fn primary(&mut self, other: bool) -> Value {
        if !other {
            return self.object(&Target::Page, 1);
        }
        loop {
            let target = self.any_target();
            if target != Target::Page {
                return if self.random.chance(10) {
                    null()
                } else {
                    self.object(&target, 1)
                };
            }
        }
    }

    fn planned_objects(&mut self) -> Vec<Value> {
        let mut objects = Vec::new();
        for plan in self.plans.clone() {
            objects.push(match plan {
                Plan::Null => null(),
                Plan::Page => self.object(&Target::Page, 1),
                Plan::Picture => self.object(&Target::Picture, 1),
                Plan::Other => {
                    let target = self.any_target();
                    self.object(&target, 1)
                }
            });
        }
        objects
    }

    /// Adds what is still missing: the offences that were asked for, and an object for every reader.
    fn make_up(&mut self, shared: &mut Vec<Value>, may_be_unused: bool) {
        if self.repeats && !self.is_repeated {
            let repeat = self.certain_repeat();
            shared.push(repeat);
        }
        if self.ends && !self.is_ended {
            let id = self.type_id(&Target::Page);
            let page = page(null(), rectangle([0; 4]), reference(0), reference(0));
            shared.push(object(id, page));
        }
        while let Some(position) = self.readers.iter().position(Reader::is_missing) {
            // Some may stay unused besides the one that must.
            if may_be_unused && self.random.chance(20) {
                break;
            }
            let target = self.readers[position].target.clone();
            self.readers[position].used = true;
            let raw = self.raw(&target, 1);
            shared.push(object(position as u32 + 1, raw));
        }
    }

    /// An object of this target.
    fn object(&mut self, target: &Target, depth: u32) -> Value {
        let id = self.type_id(target);
        object(id, self.raw(target, depth))
    }

    /// An object of any target, or null.
    fn anything(&mut self, depth: u32) -> Value {
        let target = self.any_target();
        if depth >= DEEPEST || self.random.chance(20) {
            return null();
        }
        self.object(&target, depth)
    }

    fn raw(&mut self, target: &Target, depth: u32) -> Value {
        let count = self.random.pick(&[0, 1, 2, 3, 3, 6, 20]);
        match target {
            Target::Page => self.page(),
            Target::Text => {
                let word = self.word();
                text(&word)
            }
            Target::Picture => texture(0, 1, 1, 1),
            Target::Byte => byte(self.random.byte()),
            Target::Int32 => int32(self.random.number() as i32),
            Target::Enum(_, size) => enum_of_size(*size),
            Target::NullableInt32 => nothing(),
            Target::Bytes => list(vec![byte(7); count]),
            Target::Pages => {
                let pages = (0..count % 4).map(|_| self.object(&Target::Page, depth + 1));
                list(pages.collect())
            }
            Target::Texts => {
                let texts = (0..count).map(|_| self.object(&Target::Text, depth + 1));
                array(texts.collect())
            }
            Target::Anything => {
                let count = count.min(3);
                let objects = (0..count).map(|_| self.anything(depth + 1));
                list(objects.collect())
            }
            Target::TextKeys => self.dictionary(target, count, depth + 1),
            Target::TextKeysToObjects | Target::ObjectKeys => {
                let most = if depth == 1 { 20 } else { 3 };
                self.dictionary(target, count.min(most), depth + 1)
            }
            Target::ByteKeys => {
                let count = count.min(3);
                let entries = (0..count).map(|_| (byte(7), self.anything(depth + 1)));
                dictionary(entries.collect())
            }
            Target::Unused(name) => unreachable!("nothing is read by {name}"),
        }
    }

    /// A word out of few, so that keys of two dictionaries are often equal.
    fn word(&mut self) -> String {
        let words = [
            "", "a", "b", "aa", "ab", "A", "ä", "Fahrt", "Fahrten", "\0", "\u{FFFF}",
        ];
        match self.random.below(4) {
            0 => format!("{}", self.random.below(50)),
            1 => "common prefix ".repeat(3) + self.random.pick(&words),
            _ => self.random.pick(&words).to_string(),
        }
    }

    fn page(&mut self) -> Value {
        let title = if self.random.chance(50) {
            let word = self.word();
            bound_object(self.type_id(&Target::Text), text(&word))
        } else {
            null()
        };
        let picture = self.reference(Plan::Picture, 40);
        let next = self.reference(Plan::Page, if self.ends { 30 } else { 0 });
        page(title, rectangle([1, 2, 3, 4]), picture, next)
    }

    /// A reference to a planned object, to a null one, or in so many of a hundred to none.
    fn reference(&mut self, wanted: Plan, none: usize) -> Value {
        let mut ids = Vec::new();
        for (position, plan) in self.plans.iter().enumerate() {
            if *plan == wanted || *plan == Plan::Null {
                ids.push(position as u32 + 1);
            }
        }
        let is_none = ids.is_empty() || self.random.chance(none);
        if is_none {
            self.is_ended |= wanted == Plan::Page;
            return reference(0);
        }
        reference(self.random.pick(&ids))
    }

    /// Keys and values in file order; the first key of the file that repeats one of its dictionary is marked.
    fn dictionary(&mut self, target: &Target, count: usize, depth: u32) -> Value {
        let mut words: Vec<String> = Vec::new();
        let mut entries = Vec::new();
        let repeats = self.repeats && self.random.chance(40);
        for _ in 0..count {
            let key = self.key(target, &mut words, repeats);
            let item = match target {
                Target::TextKeys => byte(7),
                _ => self.anything(depth),
            };
            entries.push((key, item));
        }
        dictionary(entries)
    }

    /// A key: a text, or where any object may stand a byte or null besides, which may be repeated.
    fn key(&mut self, target: &Target, words: &mut Vec<String>, repeats: bool) -> Value {
        if *target == Target::ObjectKeys && self.random.chance(30) {
            return match self.random.below(2) {
                0 => null(),
                _ => object(self.type_id(&Target::Byte), byte(b'a')),
            };
        }
        let mut word = self.word();
        if repeats && self.random.chance(20) && !words.is_empty() {
            word = words[self.random.below(words.len())].clone();
        }
        while !repeats && words.contains(&word) {
            word.push('+');
        }
        let key = bound_object(self.type_id(&Target::Text), text(&word));
        let is_later = words.contains(&word);
        words.push(word);
        if is_later && !self.is_repeated {
            self.is_repeated = true;
            return faulty(key);
        }
        key
    }

    /// A dictionary with one key twice.
    fn certain_repeat(&mut self) -> Value {
        let id = self.type_id(&Target::TextKeys);
        let word = self.word();
        let mut key = || bound_object(self.type_id(&Target::Text), text(&word));
        let entries = vec![(key(), byte(1)), (faulty(key()), byte(2))];
        self.is_repeated = true;
        object(id, dictionary(entries))
    }
}

impl Reader {
    /// Whether it must still be used by some object.
    fn is_missing(&self) -> bool {
        !self.used && !matches!(self.target, Target::Unused(_))
    }
}
