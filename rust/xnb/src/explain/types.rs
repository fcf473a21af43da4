//! The types that readers' names give.

use super::names::{Name, Wrong};
use crate::enums::size_in;
use crate::header::Target;
use crate::kind::Kind;
use std::borrow::Cow;

const READERS: &str = "Microsoft.Xna.Framework.Content.";
const PAGE: &str = "Coach.Console.Page";
const OBJECT: &str = "System.Object";
const TEXTURE: &str = "Microsoft.Xna.Framework.Graphics.Texture";

/// The enums that names may have as arguments.
#[derive(Clone, Copy)]
pub enum Enums<'e> {
    /// Those of a list.
    Listed(&'e [u8]),
    /// All that are not known as other types: the name is accepted.
    Any,
}

impl<'f> Target<'f> {
    pub(super) fn plain(kind: Kind) -> Target<'f> {
        let space = space_of(kind).unwrap_or_default();
        Target::named(Some(kind), format!("{space}{kind}"))
    }

    /// A type of kind Nullable or List.
    pub(super) fn with(kind: Kind, argument: Kind) -> Target<'f> {
        Target {
            arguments: vec![Target::plain(argument)],
            ..Target::plain(kind)
        }
    }

    pub(super) fn object() -> Target<'f> {
        Target::named(None, OBJECT)
    }

    fn named(kind: Option<Kind>, name: impl Into<Cow<'f, str>>) -> Target<'f> {
        Target {
            kind,
            name: name.into(),
            arguments: Vec::new(),
        }
    }

    /// The type that a reader of this name reads, or the leftmost head that is wrong.
    pub(super) fn of_reader(name: &Name<'f>, enums: Enums) -> Result<Target<'f>, Wrong> {
        let Some(target) = read_by(name.head) else {
            return Err(name.wrong_head("no reader of this name is known"));
        };
        target.check_count(name)?;
        match target.kind {
            Some(Kind::Enum) => Target::of_enum(&name.arguments[0]),
            _ => target.with_arguments(name, enums),
        }
    }

    /// The type that an argument of a type of this kind names.
    fn of_argument(
        owner: Option<Kind>,
        name: &Name<'f>,
        enums: Enums,
    ) -> Result<Target<'f>, Wrong> {
        let Some(target) = known(name.head) else {
            return match enums {
                Enums::Listed(list) if size_in(list, name.head.as_bytes()).is_none() => {
                    Err(name
                        .wrong_head("no type of this name is known, and no enum of it is listed"))
                }
                _ => Target::of_enum(name),
            };
        };
        target.check_count(name)?;
        let lawful = target.is_value() && target.kind != Some(Kind::Nullable);
        if owner == Some(Kind::Nullable) && !lawful {
            return Err(name.wrong_head("a nullable holds a value type other than Nullable"));
        }
        target.with_arguments(name, enums)
    }

    /// The same with the types that the arguments of its name name.
    fn with_arguments(self, name: &Name<'f>, enums: Enums) -> Result<Target<'f>, Wrong> {
        let arguments = name.arguments.iter();
        let arguments = arguments.map(|it| Target::of_argument(self.kind, it, enums));
        let arguments = arguments.collect::<Result<_, _>>()?;
        Ok(Target { arguments, ..self })
    }

    /// The enum of this name.
    fn of_enum(name: &Name<'f>) -> Result<Target<'f>, Wrong> {
        if known(name.head).is_some() {
            return Err(name.wrong_head("an enum has not the name of another type"));
        }
        check_count(name, 0)?;
        Ok(Target::named(Some(Kind::Enum), name.head))
    }

    fn check_count(&self, name: &Name) -> Result<(), Wrong> {
        check_count(
            name,
            match self.kind {
                Some(Kind::Enum | Kind::Nullable | Kind::Array | Kind::List) => 1,
                Some(Kind::Dictionary) => 2,
                _ => 0,
            },
        )
    }

    /// Whether an object of the other type may be where this one is declared.
    pub(super) fn takes(&self, other: &Target) -> bool {
        match (self.kind, &*self.name) {
            (None, OBJECT) => true,
            (None, _) => other.kind == Some(Kind::Texture2D),
            _ => self == other,
        }
    }

    /// Whether values of the type are raw as elements and fields.
    pub(super) fn is_value(&self) -> bool {
        let number = self.kind.map(Kind::number);
        matches!(number, Some(1..=12 | 15 | 16 | 20..=30))
    }
}

/// A wrong number of arguments is the fault of the head that takes another.
fn check_count(name: &Name, takes: usize) -> Result<(), Wrong> {
    let has = name.arguments.len();
    if takes == has {
        return Ok(());
    }
    let noun = if takes == 1 { "argument" } else { "arguments" };
    let words = format!("it takes {takes} {noun}, the name has {has}");
    Err(name.wrong_head(&words))
}

/// What a reader of this head reads, without arguments.
fn read_by<'f>(head: &str) -> Option<Target<'f>> {
    let name = head.strip_suffix("Reader")?;
    if name == PAGE {
        return Some(Target::plain(Kind::Page));
    }
    match name.strip_prefix(READERS)? {
        "Object" => Some(Target::object()),
        "Texture" => Some(Target::named(None, TEXTURE)),
        name => Kind::all()
            .find(|kind| matches!(kind.number(), 1..=33 | 37..=40) && kind.name() == name)
            .map(Target::plain),
    }
}

/// What a head of an argument names, enums apart; no argument names an array.
fn known<'f>(head: &str) -> Option<Target<'f>> {
    let is_named = |kind: &Kind| {
        let name = space_of(*kind).and_then(|space| head.strip_prefix(space));
        name == Some(kind.name()) && *kind != Kind::Array
    };
    match head {
        OBJECT => Some(Target::object()),
        TEXTURE => Some(Target::named(None, TEXTURE)),
        _ => Kind::all().find(is_named).map(Target::plain),
    }
}

/// Whether no enum may have this name.
pub fn is_target_name(name: &[u8]) -> bool {
    std::str::from_utf8(name).is_ok_and(|it| known(it).is_some())
}

/// What stands before the name of a kind in that of its type; enums have names of their own.
fn space_of(kind: Kind) -> Option<&'static str> {
    Some(match kind.number() {
        1..=13 | 16 | 17 | 20..=22 => "System.",
        18 | 19 => "System.Collections.Generic.",
        23..=30 => "Microsoft.Xna.Framework.",
        32 | 33 | 37..=40 => "Microsoft.Xna.Framework.Graphics.",
        34 => "Coach.Console.",
        _ => return None,
    })
}

/// The type that a reader of an accepted name reads.
pub fn reader_target(name: &str) -> Option<Target<'_>> {
    let name = Name::parse(name.as_bytes()).ok()?;
    Target::of_reader(&name, Enums::Any).ok()
}

#[cfg(test)]
mod tests {
    use super::*;
    use crate::refusal::Refusal;

    fn read<'f>(name: &'f str, enums: &[u8]) -> Result<Target<'f>, Wrong> {
        Target::of_reader(&Name::parse(name.as_bytes())?, Enums::Listed(enums))
    }

    fn given(name: &str) -> Option<String> {
        read(name, &[]).ok().map(|it| it.to_string())
    }

    #[test]
    fn names_give_types() {
        let list = "Microsoft.Xna.Framework.Content.ListReader`1[[System.Nullable`1[[System.Char, \
            mscorlib]], mscorlib, Version=4.0.0.0]]";
        let type_name = "System.Collections.Generic.List`1[[System.Nullable`1[[System.Char]]]]";
        assert_eq!(given(list).as_deref(), Some(type_name));
        let table = "Microsoft.Xna.Framework.Content.DictionaryReader`2[[System.Byte],\
            [Coach.Console.Page]], tail";
        let type_name =
            "System.Collections.Generic.Dictionary`2[[System.Byte],[Coach.Console.Page]]";
        assert_eq!(given(table).as_deref(), Some(type_name));
        let array = "Microsoft.Xna.Framework.Content.ArrayReader`1[[System.Int32]]";
        assert_eq!(given(array).as_deref(), Some("System.Int32[]"));
        let door = "Microsoft.Xna.Framework.Content.EnumReader`1[[Coach.Door]]";
        assert_eq!(given(door).as_deref(), Some("Coach.Door"));
        let page = "Coach.Console.PageReader";
        assert_eq!(given(page).as_deref(), Some("Coach.Console.Page"));
        let buffer = "Microsoft.Xna.Framework.Content.VertexBufferReader";
        let type_name = "Microsoft.Xna.Framework.Graphics.VertexBuffer";
        assert_eq!(given(buffer).as_deref(), Some(type_name));
        assert!(is_target_name(b"Microsoft.Xna.Framework.Graphics.Model"));
        for other in ["DataBytes", "BoneReference", "ImageLevel", "Effect"] {
            let reader = format!("Microsoft.Xna.Framework.Content.{other}Reader");
            assert_eq!(given(&reader), None);
            let target = format!("Microsoft.Xna.Framework.Graphics.{other}");
            assert!(!is_target_name(target.as_bytes()));
        }
        let texture = "Microsoft.Xna.Framework.Content.TextureReader";
        let type_name = "Microsoft.Xna.Framework.Graphics.Texture";
        assert_eq!(given(texture).as_deref(), Some(type_name));
        assert_eq!(given("Microsoft.Xna.Framework.Content.PlaneReader"), None);
        assert_eq!(given("Reader"), None);
        assert_eq!(
            given("Microsoft.Xna.Framework.Content.ListReader`1[[A"),
            None
        );
    }

    #[test]
    fn listed_enums_are_value_types() {
        let enums = b"\x0ACoach.Door\x02";
        let read = |name: &'static str| read(name, enums).expect("a type");
        let door = read("Microsoft.Xna.Framework.Content.EnumReader`1[[Coach.Door, tail]]");
        assert_eq!((door.kind, &*door.name), (Some(Kind::Enum), "Coach.Door"));
        let doors = read("Microsoft.Xna.Framework.Content.ListReader`1[[Coach.Door]]");
        assert_eq!(doors.arguments, [door]);
        assert!(doors.arguments[0].is_value());
        let type_name = "System.Collections.Generic.List`1[[Coach.Door]]";
        assert_eq!(doors.to_string(), type_name);
        let other = read("Microsoft.Xna.Framework.Content.EnumReader`1[[Coach.Seat]]");
        assert_eq!((other.kind, &*other.name), (Some(Kind::Enum), "Coach.Seat"));
        assert!(is_target_name(b"System.Nullable") && !is_target_name(b"Coach.Door"));
        assert!(!is_target_name(b"System.Array") && !is_target_name(b"System.Enum"));
    }

    /// The head that is complained of is between guillemets, and `%` is what the names of readers begin with.
    #[test]
    fn a_wrong_head_is_reported() {
        let reader = "no reader of this name is known";
        let argument = "no type of this name is known, and no enum of it is listed";
        let nullable = "a nullable holds a value type other than Nullable";
        let other = "an enum has not the name of another type";
        let [none, one, two] = ["0 arguments", "1 argument", "2 arguments"];
        let counted = |takes, has| format!("it takes {takes}, the name has {has}");
        let table = [
            ("«System.Byte»", reader.to_string()),
            ("«%PlaneReader»`1[[B]]", reader.to_string()),
            ("«%ListReader»", counted(one, 0)),
            ("«%ListReader»`2[[A],[B]]", counted(one, 2)),
            ("«%ByteReader»`1[[A]]", counted(none, 1)),
            ("«%DictionaryReader»`1[[A]]", counted(two, 1)),
            ("%ListReader`1[[«Coach.Seat», tail]]", argument.to_string()),
            (
                "%DictionaryReader`2[[System.Byte],[«A»`2[[B],[C]]]]",
                argument.to_string(),
            ),
            ("%ListReader`1[[«System.Nullable»]]", counted(one, 0)),
            ("%ListReader`1[[«Coach.Door»`1[[A]]]]", counted(none, 1)),
            ("%EnumReader`1[[«Coach.Seat»`1[[A]]]]", counted(none, 1)),
            (
                "%EnumReader`1[[«System.Nullable»`1[[A]]]]",
                other.to_string(),
            ),
            ("%NullableReader`1[[«System.String»]]", nullable.to_string()),
            (
                "%NullableReader`1[[«System.Nullable»`1[[A]]]]",
                nullable.to_string(),
            ),
            (
                "%ListReader`1[[System.Nullable`1[[«Coach.Console.Page»]]]]",
                nullable.to_string(),
            ),
        ];
        for (marked, words) in table {
            let marked = marked.replace('%', READERS);
            let start = marked.find('«').expect("a mark");
            let end = marked.find('»').expect("a mark") - '«'.len_utf8();
            let name = marked.replace(['«', '»'], "");
            let wrong = read(&name, b"\x0ACoach.Door\x02").expect_err("a wrong head");
            let reported = (wrong.refusal, wrong.bytes, wrong.words);
            assert_eq!(reported, (Refusal::NameHead, start..end, words), "{marked}");
        }
    }
}
