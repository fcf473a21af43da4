//! Well-formed names with heads that 11 complains of, none or several.

use super::{NameFault, Wrong};
use crate::enums::{with_enums, Listed};
use crate::random::Random;
use crate::shape::{Shape, ENUM, LIST, NULLABLE, STRING};

/// What a head stands for, which says what is wrong there.
#[derive(Clone, Copy, PartialEq, Eq)]
enum Role {
    Reader,
    EnumArgument,
    NullableArgument,
    Argument,
}

struct Tree {
    role: Role,
    head: String,
    arguments: Vec<Tree>,
    tail: &'static str,
    /// What 11 complains of in the head, those before it being lawful.
    fault: Option<NameFault>,
}

/// A well-formed name of a file under a list, and what is wrong with its leftmost wrong head.
pub fn name(random: &mut Random, enums: &[Listed]) -> (Vec<u8>, Option<Wrong>) {
    let mut tree = reader(random, enums);
    for _ in 0..random.pick(&[0, 1, 1, 1, 2, 3]) {
        spoil(random, &mut tree);
    }
    let mut bytes = Vec::new();
    let mut wrong = None;
    tree.write(&mut bytes, &mut wrong);
    (bytes, wrong)
}

fn reader(random: &mut Random, enums: &[Listed]) -> Tree {
    let shape = Shape::any(random);
    let shape = with_enums(random, shape, enums);
    let mut tree = leaf(random, Role::Reader, shape.reader_head());
    if shape.kind == ENUM {
        let head = match &shape.listed {
            Some(listed) => listed.name.clone(),
            None => Shape::enum_head(random).to_string(),
        };
        tree.arguments = vec![leaf(random, Role::EnumArgument, head)];
    } else {
        tree.arguments = arguments(random, &shape);
    }
    tree
}

fn arguments(random: &mut Random, owner: &Shape) -> Vec<Tree> {
    let role = if owner.kind == NULLABLE {
        Role::NullableArgument
    } else {
        Role::Argument
    };
    let mut trees = Vec::new();
    for shape in &owner.arguments {
        trees.push(target(random, role, shape));
    }
    trees
}

fn target(random: &mut Random, role: Role, shape: &Shape) -> Tree {
    let mut tree = leaf(random, role, shape.target_head().to_string());
    tree.arguments = arguments(random, shape);
    tree
}

fn leaf(random: &mut Random, role: Role, head: String) -> Tree {
    Tree {
        role,
        head,
        arguments: Vec::new(),
        tail: Shape::tail(random),
        fault: None,
    }
}

/// Makes one head of the tree wrong: its own name, its number of arguments, or what it is an argument of.
///
/// A wrong head stays as it is, so that no second change makes it right again.
fn spoil(random: &mut Random, tree: &mut Tree) {
    if !tree.arguments.is_empty() && random.chance(60) {
        let argument = random.below(tree.arguments.len());
        return spoil(random, &mut tree.arguments[argument]);
    }
    if tree.fault.is_some() {
        return;
    }
    tree.fault = Some(match random.below(3) {
        0 => wrong_count(random, tree),
        1 if tree.role == Role::NullableArgument => no_value_type(random, tree),
        _ => {
            tree.head = wrong_head(random, tree).to_string();
            match tree.role {
                Role::Reader => NameFault::UnknownReader,
                Role::EnumArgument => NameFault::OtherType,
                Role::NullableArgument | Role::Argument => NameFault::UnknownType,
            }
        }
    });
}

fn wrong_head(random: &mut Random, tree: &Tree) -> &'static str {
    match tree.role {
        Role::Reader => random.pick(&[
            "Unknown",
            "System.Byte",
            "ByteReader",
            "Coach.Console.Page",
            "System.Collections.Generic.List",
            "Microsoft.Xna.Framework.Content.byteReader",
            "Microsoft.Xna.Framework.Content.PlaneReader",
            "Microsoft.Xna.Framework.Content.ListReaders",
        ]),
        Role::EnumArgument => random.pick(&[
            "System.Int32",
            "System.Object",
            "System.Nullable",
            "System.Collections.Generic.List",
            "System.Collections.Generic.Dictionary",
            "Microsoft.Xna.Framework.Graphics.Texture",
            "Coach.Console.Page",
        ]),
        Role::NullableArgument | Role::Argument => random.pick(&[
            "Unknown",
            "System.byte",
            "System.Array",
            "System.Enum",
            "Microsoft.Xna.Framework.Plane",
            "Microsoft.Xna.Framework.Texture2D",
            "Microsoft.Xna.Framework.Content.ByteReader",
            "Coach.Console.PageReader",
        ]),
    }
}

/// Another number of arguments than the head has now.
fn wrong_count(random: &mut Random, tree: &mut Tree) -> NameFault {
    let takes = tree.arguments.len();
    let counts: Vec<usize> = (0..3).filter(|it| *it != takes).collect();
    let has = random.pick(&counts);
    tree.arguments.truncate(has);
    while tree.arguments.len() < has {
        let head = random.pick(&["System.Byte", "Unknown"]).to_string();
        let added = leaf(random, Role::Argument, head);
        tree.arguments.push(added);
    }
    NameFault::Count { takes, has }
}

/// "Nullable's argument must be a value type other than Nullable."
fn no_value_type(random: &mut Random, tree: &mut Tree) -> NameFault {
    let shapes = [
        Shape::plain(STRING),
        Shape::of(LIST, Shape::plain(1)),
        Shape::of(NULLABLE, Shape::plain(1)),
        Shape::of(NULLABLE, Shape::plain(STRING)),
    ];
    let shape = &shapes[random.below(shapes.len())];
    *tree = target(random, Role::NullableArgument, shape);
    NameFault::NoValueType
}

impl Tree {
    /// A head stands before its arguments' heads, so the first wrong one is the leftmost.
    fn write(&self, bytes: &mut Vec<u8>, wrong: &mut Option<Wrong>) {
        if let (Some(fault), None) = (&self.fault, &wrong) {
            *wrong = Some(Wrong {
                number: 11,
                place: bytes.len(),
                length: self.head.len(),
                fault: fault.clone(),
            });
        }
        bytes.extend_from_slice(self.head.as_bytes());
        for (number, argument) in self.arguments.iter().enumerate() {
            let digit = self.arguments.len();
            let before = match number {
                0 => format!("`{digit}[["),
                _ => ",[".to_string(),
            };
            bytes.extend_from_slice(before.as_bytes());
            argument.write(bytes, wrong);
            bytes.push(b']');
        }
        if !self.arguments.is_empty() {
            bytes.push(b']');
        }
        bytes.extend_from_slice(self.tail.as_bytes());
    }
}
