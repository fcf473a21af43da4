//! Random files that are lawful but for one fault that may be asked for.

mod meshes;

use crate::enums::{with_enums, Listed};
use crate::random::Random;
use crate::shape::{
    Shape, ARRAY, CHAR, DICTIONARY, ENUM, INDEX_BUFFER, LIST, MODEL, NULLABLE, OBJECT, PAGE,
    RAW_KINDS, RECTANGLE, SPRITE_FONT, STRING, TEXTURE, TEXTURE2D, VECTOR3, VERTEX_BUFFER,
    VERTEX_DECLARATION,
};
use corpus::values::{
    array, bound_object, char_bytes, date_time, decimal, dictionary, faulty, file, fixed, font,
    image_bytes, image_level, list, nothing, null, object, page, reference, something, text,
    texture_of, Font,
};
use corpus::writer::{File, Value};
use std::collections::BTreeSet;

const MOST_READERS: usize = 64;
const DEEPEST: u32 = 32;
const LAST_TICK: u64 = 3_155_378_975_999_999_999;

/// A fault that is built into a file.
#[derive(Clone, Copy, PartialEq, Eq)]
pub enum Planted {
    Nothing,
    /// 17: a reference leads to a resource of another type.
    WrongResource,
    /// 22: a font breaks its rule.
    BadFont,
    /// 18: a value is too deep.
    TooDeep,
}

/// What a random file is for.
#[derive(Clone, Copy)]
pub struct Wish<'l> {
    /// The lent list.
    pub enums: &'l [Listed],
    /// Whether it holds many meshes.
    pub meshes: bool,
}

impl Wish<'_> {
    pub const MESHES: Wish<'static> = Wish {
        enums: &[],
        meshes: true,
    };
}

impl<'l, T: AsRef<[Listed]> + ?Sized> From<&'l T> for Wish<'l> {
    fn from(enums: &'l T) -> Wish<'l> {
        let enums = enums.as_ref();
        let meshes = false;
        Wish { enums, meshes }
    }
}

/// A random file and the targets of its readers.
pub struct Made {
    pub file: File,
    pub targets: Vec<Shape>,
}

/// What a shared object is going to be.
#[derive(Clone, Copy, PartialEq, Eq)]
enum Plan {
    Null,
    Picture,
    Page,
    Text,
    Vertices,
    Indices,
    /// No shared object is one.
    Effect,
    Other,
}

struct Maker<'r> {
    random: &'r mut Random,
    wish: Wish<'r>,
    planted: Planted,
    /// Whether the planted fault stands in the file already.
    is_planted: bool,
    readers: Vec<(Shape, String)>,
    plans: Vec<Plan>,
    rows_left: i32,
}

/// A random file; the planted fault is marked in it, if it found a place.
pub fn make<'l>(random: &mut Random, planted: Planted, wish: impl Into<Wish<'l>>) -> Made {
    let wish = wish.into();
    let rows_left = random.pick(&[3, 20, 20, 60, 60, 200]);
    let mut maker = Maker {
        random,
        wish,
        planted,
        is_planted: false,
        readers: Vec::new(),
        plans: Vec::new(),
        rows_left,
    };
    maker.list_some_readers();
    maker.plan_shared_objects();
    let primary = maker.primary();
    let shared = maker.shared_objects();
    let mut file = file(&maker.names(), primary, shared);
    file.start[3] = maker.random.pick(b"wmx");
    file.start[5] = maker.random.pick(&[0, 1]);
    if maker.random.chance(40) {
        // Some seven-bit numbers get more bytes than they need.
        let random = &mut *maker.random;
        file.each_seven(&mut |_, seven| seven.width = random.below(6));
    }
    let targets = maker.readers.into_iter().map(|(target, _)| target);
    Made {
        file,
        targets: targets.collect(),
    }
}

/// A container of any object; a dictionary's keys are bytes.
fn container_shape(kind: u32) -> Shape {
    let anything = Shape::plain(OBJECT);
    if kind == DICTIONARY {
        return Shape::with(kind, vec![Shape::plain(1), anything]);
    }
    Shape::of(kind, anything)
}

impl Maker<'_> {
    fn names(&self) -> Vec<&str> {
        self.readers.iter().map(|(_, name)| name.as_str()).collect()
    }

    /// Readers that may stay unused, among them those never invoked.
    fn list_some_readers(&mut self) {
        let count = match self.random.below(20) {
            0 => 50,
            few => few / 3,
        };
        for _ in 0..count {
            let target = match self.random.below(8) {
                0 => Shape::plain(OBJECT),
                1 => Shape::plain(TEXTURE),
                _ => self.any_shape(),
            };
            self.add_reader(&target);
        }
    }

    /// Adds a reader and answers its type id, unless the list is full or the name is too long.
    fn add_reader(&mut self, target: &Shape) -> Option<u32> {
        let name = target.reader_name(self.random);
        if self.readers.len() == MOST_READERS || name.len() > 1024 {
            return None;
        }
        self.readers.push((target.clone(), name));
        Some(self.readers.len() as u32)
    }

    /// A type id for this target, of a listed reader or of a new one.
    fn type_id(&mut self, target: &Shape) -> Option<u32> {
        let mut ids = Vec::new();
        for (position, (listed, _)) in self.readers.iter().enumerate() {
            if listed == target {
                ids.push(position as u32 + 1);
            }
        }
        if ids.is_empty() || self.random.chance(5) {
            let added = self.add_reader(target);
            ids.extend(added);
        }
        if ids.is_empty() {
            return None;
        }
        Some(self.random.pick(&ids))
    }

    fn plan_shared_objects(&mut self) {
        let count = self.random.pick(&[0, 0, 1, 2, 4, 9]);
        for _ in 0..count {
            let plans = [
                Plan::Null,
                Plan::Vertices,
                Plan::Indices,
                Plan::Picture,
                Plan::Page,
                Plan::Text,
                Plan::Other,
            ];
            let choices = if self.wish.meshes { 3 } else { plans.len() };
            let plan = self.random.pick(&plans[..choices]);
            self.plans.push(plan);
        }
        if self.planted == Planted::WrongResource {
            self.plans.push(Plan::Page);
            self.plans.push(Plan::Text);
        }
        for target in [TEXTURE2D, PAGE, STRING, VERTEX_BUFFER, INDEX_BUFFER] {
            if !self.plans.is_empty() {
                self.type_id(&Shape::plain(target));
            }
        }
    }

    fn shared_objects(&mut self) -> Vec<Value> {
        let mut objects = Vec::new();
        for plan in self.plans.clone() {
            objects.push(match plan {
                Plan::Null => null(),
                Plan::Picture => self.certain_object(&Shape::plain(TEXTURE2D)),
                Plan::Page => self.certain_object(&Shape::plain(PAGE)),
                Plan::Text => self.certain_object(&Shape::plain(STRING)),
                Plan::Vertices => self.certain_object(&Shape::plain(VERTEX_BUFFER)),
                Plan::Indices => self.certain_object(&Shape::plain(INDEX_BUFFER)),
                Plan::Effect => unreachable!("no plan has an effect"),
                Plan::Other => self.object(&Shape::plain(OBJECT), 1),
            });
        }
        objects
    }

    /// A top object of this target, which must not be null.
    fn certain_object(&mut self, target: &Shape) -> Value {
        let id = self.type_id(target).expect("its reader was listed early");
        object(id, self.raw(target, 1))
    }

    fn primary(&mut self) -> Value {
        match self.planted {
            Planted::BadFont => self.buried_font(),
            Planted::TooDeep if self.wish.meshes => self.too_deep_mesh(),
            Planted::TooDeep => self.too_deep(),
            _ if self.wish.meshes && self.random.chance(60) => self.model_object(),
            _ if self.random.chance(8) => {
                self.list_containers();
                let depth = self.random.between(2, DEEPEST);
                let innermost = self.object(&Shape::plain(OBJECT), depth);
                self.bury(depth, innermost)
            }
            _ if self.random.chance(10) => null(),
            _ => self.object(&Shape::plain(OBJECT), 1),
        }
    }

    /// A list at the deepest depth that still has an element.
    fn too_deep(&mut self) -> Value {
        self.list_containers();
        let id = self.type_id(&container_shape(LIST));
        let deepest = list(vec![faulty(null())]);
        let innermost = object(id.expect("the containers are listed"), deepest);
        self.bury(DEEPEST, innermost)
    }

    fn buried_font(&mut self) -> Value {
        self.list_containers();
        let depth = self.random.between(1, 3);
        if !self.lists_font_readers() {
            return null();
        }
        let Some(id) = self.type_id(&Shape::plain(SPRITE_FONT)) else {
            return null();
        };
        let innermost = object(id, self.font());
        self.bury(depth, innermost)
    }

    /// Lists the readers of the containers that bury a value.
    fn list_containers(&mut self) {
        for kind in [ARRAY, LIST, DICTIONARY] {
            self.type_id(&container_shape(kind));
        }
    }

    /// Containers around a value, so that it has this depth; their readers must be listed.
    fn bury(&mut self, depth: u32, innermost: Value) -> Value {
        let mut value = innermost;
        for _ in 1..depth {
            let kind = self.random.pick(&[ARRAY, LIST, DICTIONARY]);
            let id = self.type_id(&container_shape(kind));
            let container = match kind {
                ARRAY => array(vec![value]),
                LIST => list(vec![value]),
                _ => dictionary(vec![(fixed(1, &[7]), value)]),
            };
            value = object(id.expect("the containers are listed"), container);
        }
        value
    }

    /// An object where a type is declared.
    fn object(&mut self, declared: &Shape, depth: u32) -> Value {
        self.rows_left -= 1;
        if self.random.chance(15) {
            return null();
        }
        let target = match declared.kind {
            OBJECT => self.any_target(),
            TEXTURE => Shape::plain(TEXTURE2D),
            _ => declared.clone(),
        };
        if !self.has_room_for(&target, depth) {
            return null();
        }
        if target.kind == SPRITE_FONT && !self.lists_font_readers() {
            return null();
        }
        let Some(id) = self.type_id(&target) else {
            return null();
        };
        let raw = self.raw(&target, depth);
        if declared.kind == OBJECT {
            object(id, raw)
        } else {
            bound_object(id, raw)
        }
    }

    /// A target that has a reader already, or a new one.
    fn any_target(&mut self) -> Shape {
        if self.wish.meshes && self.random.chance(50) {
            return Shape::plain(self.random.pick(&meshes::MESHES));
        }
        if !self.readers.is_empty() && self.random.chance(50) {
            let position = self.random.below(self.readers.len());
            let target = self.readers[position].0.clone();
            if target.kind != OBJECT && target.kind != TEXTURE {
                return target;
            }
        }
        self.any_shape()
    }

    /// Any target, often with listed enums in it.
    fn any_shape(&mut self) -> Shape {
        let shape = Shape::any(self.random);
        with_enums(self.random, shape, self.wish.enums)
    }

    /// Whether a value with all that must be below it fits into depth and rows.
    fn has_room_for(&self, target: &Shape, depth: u32) -> bool {
        match target.kind {
            TEXTURE2D => depth < DEEPEST && self.rows_left > 2,
            PAGE => depth < DEEPEST && self.rows_left > 5,
            SPRITE_FONT => depth + 2 <= DEEPEST && self.rows_left > 30,
            INDEX_BUFFER | VERTEX_DECLARATION | MODEL => depth < DEEPEST && self.rows_left > 6,
            VERTEX_BUFFER => depth + 2 <= DEEPEST && self.rows_left > 6,
            _ => true,
        }
    }

    /// An element or field where a type is declared.
    fn element(&mut self, declared: &Shape, depth: u32) -> Value {
        if declared.is_raw() {
            self.rows_left -= 1;
            self.raw(declared, depth)
        } else {
            self.object(declared, depth)
        }
    }

    /// The raw bytes of a value at this depth.
    fn raw(&mut self, target: &Shape, depth: u32) -> Value {
        match target.kind {
            11 => fixed(11, &[self.random.byte() & 1]),
            CHAR => self.character(),
            STRING => self.text(),
            ENUM => {
                let size = target.listed.as_ref().map_or(4, |listed| listed.size);
                fixed(ENUM, &self.random.bytes(size.into()))
            }
            NULLABLE => self.nullable(&target.arguments[0], depth),
            ARRAY => array(self.elements(&target.arguments[0], depth)),
            LIST => list(self.elements(&target.arguments[0], depth)),
            DICTIONARY => self.dictionary(&target.arguments[0], &target.arguments[1], depth),
            21 => self.date_time(),
            22 => self.decimal(),
            TEXTURE2D => self.texture(),
            SPRITE_FONT => self.font(),
            PAGE => self.page(depth),
            INDEX_BUFFER => self.index_buffer(),
            VERTEX_DECLARATION => self.vertex_declaration(),
            VERTEX_BUFFER => self.vertex_buffer(),
            MODEL => self.model(depth),
            kind => {
                let sized = RAW_KINDS.iter().find(|(raw, _)| *raw == kind);
                let (_, size) = sized.expect("every other kind is raw");
                fixed(kind, &self.random.bytes(*size))
            }
        }
    }

    /// A character of one to three bytes.
    fn any_char(&mut self) -> char {
        let edges = [
            '\0', '\u{7F}', '\u{80}', '\u{7FF}', '\u{800}', '\u{D7FF}', '\u{E000}', '\u{FFFF}',
        ];
        let code = match self.random.below(4) {
            0 => return self.random.pick(&edges),
            1 => self.random.between(0x20, 0x7E),
            2 => self.random.between(0x80, 0x7FF),
            _ => self.random.between(0x800, 0xFFFF),
        };
        char::from_u32(code).unwrap_or('x')
    }

    fn character(&mut self) -> Value {
        char_bytes(self.any_char().to_string().as_bytes())
    }

    /// A text, mixed or almost all ASCII.
    fn text(&mut self) -> Value {
        let count = self.random.pick(&[0, 1, 3, 9, 9, 60, 150]);
        let odd = self.random.pick(&[6, 6, 40, 1000]);
        let mut characters = String::new();
        for _ in 0..count {
            let character = match self.random.below(odd) {
                0 => self.any_char(),
                1 => char::from_u32(self.random.between(0x1_0000, 0x10_FFFF)).unwrap_or('y'),
                _ => self.random.between(0x20, 0x7E) as u8 as char,
            };
            characters.push(character);
        }
        text(&characters)
    }

    fn nullable(&mut self, target: &Shape, depth: u32) -> Value {
        if depth >= DEEPEST || self.random.chance(40) {
            return nothing();
        }
        something(self.element(target, depth + 1))
    }

    fn element_count(&mut self, depth: u32) -> usize {
        if depth >= DEEPEST || self.rows_left <= 0 {
            return 0;
        }
        self.random.pick(&[0, 1, 1, 2, 2, 3, 3, 5, 5, 40])
    }

    fn elements(&mut self, target: &Shape, depth: u32) -> Vec<Value> {
        let count = self.element_count(depth);
        (0..count)
            .map(|_| self.element(target, depth + 1))
            .collect()
    }

    fn dictionary(&mut self, key: &Shape, item: &Shape, depth: u32) -> Value {
        let mut entries = Vec::new();
        for _ in 0..self.element_count(depth) {
            let key = self.element(key, depth + 1);
            let item = self.element(item, depth + 1);
            entries.push((key, item));
        }
        dictionary(entries)
    }

    fn date_time(&mut self) -> Value {
        let zone = self.random.between(0, 2).into();
        let ticks = match self.random.below(3) {
            0 => self.random.pick(&[0, 1, LAST_TICK]),
            _ => self.random.number() % (LAST_TICK + 1),
        };
        date_time(zone, ticks)
    }

    fn decimal(&mut self) -> Value {
        let mut words = [0; 4];
        for word in &mut words[..3] {
            *word = self.random.number() as u32;
        }
        let sign = self.random.between(0, 1);
        words[3] = sign << 31 | self.random.between(0, 28) << 16;
        decimal(words)
    }

    fn texture(&mut self) -> Value {
        let format = self.random.between(0, 18);
        let width = self.random.between(1, 9);
        let height = self.random.between(1, 9);
        let chain = u32::BITS - width.max(height).leading_zeros();
        let count = self.random.between(1, chain);
        let mut levels = Vec::new();
        for level in 0..count {
            self.rows_left -= 1;
            levels.push(image_level(image_bytes(format, width, height, level)));
        }
        texture_of(format, width, height, levels)
    }

    /// An object of a font, which must not be null.
    fn field(&mut self, target: &Shape, raw: Value) -> Value {
        self.rows_left -= 1;
        let id = self.type_id(target).expect("a font's readers are listed");
        bound_object(id, raw)
    }

    /// Lists the readers that a font needs, or fails because the list is full.
    fn lists_font_readers(&mut self) -> bool {
        let needed = [
            Shape::plain(TEXTURE2D),
            Shape::of(LIST, Shape::plain(RECTANGLE)),
            Shape::of(LIST, Shape::plain(CHAR)),
            Shape::of(LIST, Shape::plain(VECTOR3)),
        ];
        needed.iter().all(|target| self.type_id(target).is_some())
    }

    /// A font; its readers must be listed.
    fn font(&mut self) -> Value {
        let characters = self.rising_characters();
        if self.planted == Planted::BadFont && !self.is_planted {
            self.is_planted = true;
            return faulty(self.bad_font(characters));
        }
        let counts = [characters.len(); 3];
        font(self.font_fields(counts, &characters))
    }

    fn rising_characters(&mut self) -> Vec<char> {
        let count = self.random.below(4);
        let mut characters = BTreeSet::new();
        while characters.len() < count {
            characters.insert(self.any_char());
        }
        characters.into_iter().collect()
    }

    /// A font that breaks one part of the font rule.
    fn bad_font(&mut self, rising: Vec<char>) -> Value {
        let mut characters = rising;
        let breach = self.random.below(4);
        match breach {
            0 => characters.extend(['a', 'a']),
            1 => characters.extend(['\u{FFFF}', 'b']),
            _ => {}
        }
        let mut counts = [characters.len(); 3];
        if breach == 2 {
            counts[self.random.below(3)] += 1;
        }
        let mut fields = self.font_fields(counts, &characters);
        if breach == 3 {
            self.nullify(&mut fields);
        }
        font(fields)
    }

    fn font_fields(&mut self, counts: [usize; 3], characters: &[char]) -> Font {
        let boxes = Shape::of(LIST, Shape::plain(RECTANGLE));
        let chars = Shape::of(LIST, Shape::plain(CHAR));
        let vectors = Shape::of(LIST, Shape::plain(VECTOR3));
        let picture = self.texture();
        let glyphs = self.fixed_list(RECTANGLE, 16, counts[0]);
        let cropping = self.fixed_list(RECTANGLE, 16, counts[1]);
        let letters = characters
            .iter()
            .map(|it| char_bytes(it.to_string().as_bytes()));
        let letters = list(letters.collect());
        let kerning = self.fixed_list(VECTOR3, 12, counts[2]);
        let default_character = if self.random.chance(50) {
            something(self.character())
        } else {
            nothing()
        };
        Font {
            texture: self.field(&Shape::plain(TEXTURE2D), picture),
            glyphs: self.field(&boxes, glyphs),
            cropping: self.field(&boxes, cropping),
            characters: self.field(&chars, letters),
            line_spacing: fixed(5, &self.random.bytes(4)),
            spacing: fixed(9, &self.random.bytes(4)),
            kerning: self.field(&vectors, kerning),
            default_character,
        }
    }

    fn fixed_list(&mut self, kind: u32, size: usize, count: usize) -> Value {
        self.rows_left -= count as i32;
        list(
            (0..count)
                .map(|_| fixed(kind, &self.random.bytes(size)))
                .collect(),
        )
    }

    /// Takes one of the five objects out of a font.
    fn nullify(&mut self, font: &mut Font) {
        let field = match self.random.below(5) {
            0 => &mut font.texture,
            1 => &mut font.glyphs,
            2 => &mut font.cropping,
            3 => &mut font.characters,
            _ => &mut font.kerning,
        };
        *field = null();
    }

    fn page(&mut self, depth: u32) -> Value {
        let title = self.object(&Shape::plain(STRING), depth + 1);
        let area = fixed(RECTANGLE, &self.random.bytes(16));
        self.rows_left -= 3;
        let picture = self.reference(Plan::Picture);
        let next = self.reference(Plan::Page);
        page(title, area, picture, next)
    }

    /// A reference to a resource that fits, or to the planted wrong one.
    fn reference(&mut self, wanted: Plan) -> Value {
        let wrong = self.planted == Planted::WrongResource && self.random.chance(60);
        let is_choice = |plan: Plan| {
            if wrong {
                plan == Plan::Text || plan == Plan::Page && wanted != Plan::Page
            } else {
                plan == wanted || plan == Plan::Null
            }
        };
        let mut ids = Vec::new();
        for (position, plan) in self.plans.iter().enumerate() {
            if is_choice(*plan) {
                ids.push(position as u32 + 1);
            }
        }
        if ids.is_empty() || !wrong && self.random.chance(20) {
            return reference(0);
        }
        let chosen = reference(self.random.pick(&ids));
        if wrong && !self.is_planted {
            self.is_planted = true;
            return faulty(chosen);
        }
        chosen
    }
}
