//! Target types to choose from, and their names.

use crate::enums::Listed;
use crate::random::Random;

pub const CHAR: u32 = 12;
pub const STRING: u32 = 13;
pub const OBJECT: u32 = 14;
pub const ENUM: u32 = 15;
pub const NULLABLE: u32 = 16;
pub const ARRAY: u32 = 17;
pub const LIST: u32 = 18;
pub const DICTIONARY: u32 = 19;
pub const VECTOR3: u32 = 24;
pub const RECTANGLE: u32 = 30;
pub const TEXTURE: u32 = 31;
pub const TEXTURE2D: u32 = 32;
pub const SPRITE_FONT: u32 = 33;
pub const PAGE: u32 = 34;
pub const INDEX_BUFFER: u32 = 37;
pub const VERTEX_DECLARATION: u32 = 38;
pub const VERTEX_BUFFER: u32 = 39;
pub const MODEL: u32 = 40;

/// A target type; enums that are not listed are told apart by nothing.
#[derive(Clone, Debug, PartialEq, Eq)]
pub struct Shape {
    pub kind: u32,
    pub arguments: Vec<Shape>,
    /// Of an enum that is listed.
    pub listed: Option<Listed>,
}

/// Kinds whose values stand raw and have no arguments, with their sizes; 0 for Char.
pub const RAW_KINDS: [(u32, usize); 23] = [
    (1, 1),
    (2, 1),
    (3, 2),
    (4, 2),
    (5, 4),
    (6, 4),
    (7, 8),
    (8, 8),
    (9, 4),
    (10, 8),
    (11, 1),
    (12, 0),
    (20, 8),
    (21, 8),
    (22, 16),
    (23, 8),
    (24, 12),
    (25, 16),
    (26, 64),
    (27, 16),
    (28, 4),
    (29, 8),
    (30, 16),
];

const TEXT_AND_GRAPHICS: [u32; 8] = [
    STRING,
    TEXTURE2D,
    SPRITE_FONT,
    PAGE,
    INDEX_BUFFER,
    VERTEX_DECLARATION,
    VERTEX_BUFFER,
    MODEL,
];
const GENERIC: [u32; 4] = [NULLABLE, ARRAY, LIST, DICTIONARY];
const DEEPEST_ARGUMENT: u32 = 6;

impl Shape {
    pub fn plain(kind: u32) -> Shape {
        Shape::with(kind, Vec::new())
    }

    pub fn of(kind: u32, argument: Shape) -> Shape {
        Shape::with(kind, vec![argument])
    }

    /// A listed enum.
    pub fn listed(listed: &Listed) -> Shape {
        let listed = Some(listed.clone());
        Shape {
            listed,
            ..Shape::plain(ENUM)
        }
    }

    pub fn with(kind: u32, arguments: Vec<Shape>) -> Shape {
        let listed = None;
        Shape {
            kind,
            arguments,
            listed,
        }
    }

    /// Value types stand raw as elements and fields; an enum is known there only if it is listed.
    pub fn is_raw(&self) -> bool {
        let is_raw_kind = RAW_KINDS.iter().any(|(kind, _)| *kind == self.kind);
        self.kind == NULLABLE || is_raw_kind || self.listed.is_some()
    }

    /// A type whose reader can be invoked.
    pub fn any(random: &mut Random) -> Shape {
        match random.below(10) {
            0..=2 => raw_shape(random),
            3..=4 => Shape::plain(random.pick(&TEXT_AND_GRAPHICS)),
            5 => Shape::plain(ENUM),
            _ => generic_shape(random, 1),
        }
    }

    /// The name of the reader whose target this is, often with tails.
    pub fn reader_name(&self, random: &mut Random) -> String {
        let arguments = match (self.kind, &self.listed) {
            (ENUM, Some(listed)) => format!("`1[[{}{}]]", listed.name, tail(random)),
            (ENUM, None) => format!("`1[[{}]]", enum_name(random)),
            _ => self.argument_names(random),
        };
        self.reader_head() + &arguments + tail(random)
    }

    /// The head of the reader whose target this is.
    pub fn reader_head(&self) -> String {
        match self.kind {
            PAGE => "Coach.Console.PageReader".to_string(),
            ENUM => content_reader("Enum"),
            ARRAY => content_reader("Array"),
            _ => {
                let head = self.target_head();
                content_reader(head.rsplit('.').next().unwrap_or(head))
            }
        }
    }

    /// The head of this type as an argument.
    pub fn target_head(&self) -> &str {
        match &self.listed {
            Some(listed) => &listed.name,
            None => target_head(self.kind),
        }
    }

    /// This type in words, as the reader of this name reads it.
    pub fn shown(&self, reader_name: &[u8]) -> String {
        let arguments: Vec<String> = self.arguments.iter().map(|it| it.shown(&[])).collect();
        match (self.kind, &arguments[..]) {
            (ENUM, _) if self.listed.is_some() => self.target_head().to_string(),
            (ENUM, _) => {
                let name = String::from_utf8_lossy(reader_name);
                let argument = name.split("[[").nth(1).unwrap_or_default();
                let end = argument.find([',', ']']).unwrap_or(argument.len());
                argument[..end].to_string()
            }
            (ARRAY, [element]) => format!("{element}[]"),
            (_, []) => self.target_head().to_string(),
            _ => {
                let (head, count) = (self.target_head(), arguments.len());
                format!("{head}`{count}[[{}]]", arguments.join("],["))
            }
        }
    }

    /// A head that may be an enum's.
    pub fn enum_head(random: &mut Random) -> &'static str {
        random.pick(&UNLISTED)
    }

    /// No tail, or a comma and a tail.
    pub fn tail(random: &mut Random) -> &'static str {
        tail(random)
    }

    fn target_name(&self, random: &mut Random) -> String {
        let arguments = self.argument_names(random);
        self.target_head().to_string() + &arguments + tail(random)
    }

    fn argument_names(&self, random: &mut Random) -> String {
        if self.arguments.is_empty() {
            return String::new();
        }
        let mut names = Vec::new();
        for argument in &self.arguments {
            names.push(format!("[{}]", argument.target_name(random)));
        }
        format!("`{}[{}]", names.len(), names.join(","))
    }
}

fn raw_shape(random: &mut Random) -> Shape {
    Shape::plain(random.pick(&RAW_KINDS).0)
}

fn generic_shape(random: &mut Random, level: u32) -> Shape {
    let kind = random.pick(&GENERIC);
    let arguments = match kind {
        NULLABLE => vec![raw_shape(random)],
        DICTIONARY => vec![
            argument_shape(random, level + 1),
            argument_shape(random, level + 1),
        ],
        _ => vec![argument_shape(random, level + 1)],
    };
    Shape::with(kind, arguments)
}

/// A type as an argument; arrays and enums are not known there.
fn argument_shape(random: &mut Random, level: u32) -> Shape {
    match random.below(10) {
        0..=2 => raw_shape(random),
        3..=4 => Shape::plain(OBJECT),
        5 => Shape::plain(random.pick(&TEXT_AND_GRAPHICS)),
        6 => Shape::plain(TEXTURE),
        _ if level > DEEPEST_ARGUMENT => Shape::plain(STRING),
        _ => {
            let shape = generic_shape(random, level);
            if shape.kind == ARRAY {
                Shape::of(LIST, shape.arguments[0].clone())
            } else {
                shape
            }
        }
    }
}

fn content_reader(name: &str) -> String {
    format!("Microsoft.Xna.Framework.Content.{name}Reader")
}

fn target_head(kind: u32) -> &'static str {
    match kind {
        1 => "System.Byte",
        2 => "System.SByte",
        3 => "System.Int16",
        4 => "System.UInt16",
        5 => "System.Int32",
        6 => "System.UInt32",
        7 => "System.Int64",
        8 => "System.UInt64",
        9 => "System.Single",
        10 => "System.Double",
        11 => "System.Boolean",
        12 => "System.Char",
        13 => "System.String",
        14 => "System.Object",
        16 => "System.Nullable",
        18 => "System.Collections.Generic.List",
        19 => "System.Collections.Generic.Dictionary",
        20 => "System.TimeSpan",
        21 => "System.DateTime",
        22 => "System.Decimal",
        23 => "Microsoft.Xna.Framework.Vector2",
        24 => "Microsoft.Xna.Framework.Vector3",
        25 => "Microsoft.Xna.Framework.Vector4",
        26 => "Microsoft.Xna.Framework.Matrix",
        27 => "Microsoft.Xna.Framework.Quaternion",
        28 => "Microsoft.Xna.Framework.Color",
        29 => "Microsoft.Xna.Framework.Point",
        30 => "Microsoft.Xna.Framework.Rectangle",
        31 => "Microsoft.Xna.Framework.Graphics.Texture",
        32 => "Microsoft.Xna.Framework.Graphics.Texture2D",
        33 => "Microsoft.Xna.Framework.Graphics.SpriteFont",
        34 => "Coach.Console.Page",
        37 => "Microsoft.Xna.Framework.Graphics.IndexBuffer",
        38 => "Microsoft.Xna.Framework.Graphics.VertexDeclaration",
        39 => "Microsoft.Xna.Framework.Graphics.VertexBuffer",
        40 => "Microsoft.Xna.Framework.Graphics.Model",
        _ => unreachable!("kind {kind} has no target name"),
    }
}

/// Enums that no list has.
pub const UNLISTED: [&str; 6] = [
    "Coach.Door",
    "Coach.Door+State",
    "E",
    "_9.",
    "System.DayOfWeek",
    "System.Byte2",
];

fn enum_name(random: &mut Random) -> String {
    random.pick(&UNLISTED).to_string() + tail(random)
}

fn tail(random: &mut Random) -> &'static str {
    let tails = [
        "",
        "",
        "",
        ",",
        ", mscorlib",
        ", a, `1 ~!\"#$%&'()*",
        ", mscorlib, Version=4.0.0.0, Culture=neutral, PublicKeyToken=b77a5c561934e089",
    ];
    random.pick(&tails)
}
