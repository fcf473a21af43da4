//! Target types: what a reader makes and what a place declares.

use crate::enums::EnumList;
use crate::kinds::{
    argument_count, fixed_size, is_value_type, kind_of_reader, kind_of_target, ENUM, LIST,
    NULLABLE, OBJECT, TEXTURE, TEXTURE2D,
};
use crate::name::Name;
use crate::refusal::{demand, refuse, Refusal, NAME_HEAD};

/// "EnumReader for a listed name takes that size, for others four."
const UNLISTED_SIZE: usize = 4;

/// A target type.
#[derive(Clone, Debug, PartialEq, Eq)]
pub struct Type {
    pub kind: u32,
    pub arguments: Vec<Type>,
    /// Of an enum only.
    enumeration: Option<Enumeration>,
}

/// What tells one enum from another, and its size.
#[derive(Clone, Debug, PartialEq, Eq)]
struct Enumeration {
    name: Vec<u8>,
    size: usize,
}

impl Type {
    /// A type without arguments.
    pub fn plain(kind: u32) -> Type {
        Type::of(kind, Vec::new())
    }

    pub fn of(kind: u32, arguments: Vec<Type>) -> Type {
        let enumeration = None;
        Type {
            kind,
            arguments,
            enumeration,
        }
    }

    /// The list of a type without arguments.
    pub fn list_of(kind: u32) -> Type {
        Type::of(LIST, vec![Type::plain(kind)])
    }

    fn enumeration(name: &[u8], size: usize) -> Type {
        let name = name.to_vec();
        Type {
            enumeration: Some(Enumeration { name, size }),
            ..Type::plain(ENUM)
        }
    }

    /// The size of a value of this type, if all take the same number of bytes.
    pub fn size(&self) -> Option<usize> {
        match &self.enumeration {
            Some(enumeration) => Some(enumeration.size),
            None => fixed_size(self.kind),
        }
    }

    /// Object and Texture readers are never invoked.
    pub fn is_invoked(&self) -> bool {
        self.kind != OBJECT && self.kind != TEXTURE
    }

    /// Whether a place that declares this type takes an object of the other type.
    pub fn takes(&self, other: &Type) -> bool {
        match self.kind {
            OBJECT => true,
            TEXTURE => other.kind == TEXTURE2D,
            _ => self == other,
        }
    }
}

/// The target type of a reader; 11 is placed at the leftmost head that it complains of.
///
/// A head stands before the heads of its arguments, so it is judged before them.
pub fn reader_target(name: &Name, enums: &EnumList) -> Result<Type, Refusal> {
    let kind = kind_with_count(kind_of_reader(name.head), name)?;
    if kind == ENUM {
        return enum_target(&name.arguments[0], enums);
    }
    with_arguments(kind, name, enums)
}

/// "A head that is not listed, or a wrong argument count": both are faults of the name's own head.
fn kind_with_count(kind: Option<u32>, name: &Name) -> Result<u32, Refusal> {
    match kind {
        Some(kind) if name.arguments.len() == argument_count(kind) => Ok(kind),
        _ => refuse(NAME_HEAD, name.place),
    }
}

/// An enum has any head that is no target name, and no arguments.
fn enum_target(name: &Name, enums: &EnumList) -> Result<Type, Refusal> {
    let is_target_name = kind_of_target(name.head).is_some();
    let lawful = !is_target_name && name.arguments.is_empty();
    demand(lawful, NAME_HEAD, name.place)?;
    let size = enums.size(name.head).unwrap_or(UNLISTED_SIZE);
    Ok(Type::enumeration(name.head, size))
}

/// An argument's type; an unlawful argument is a fault of the argument's own head.
///
/// "A listed name is a known value type in arguments."
fn argument_type(owner: u32, name: &Name, enums: &EnumList) -> Result<Type, Refusal> {
    if enums.size(name.head).is_some() {
        return enum_target(name, enums);
    }
    let kind = kind_with_count(kind_of_target(name.head), name)?;
    let lawful = owner != NULLABLE || may_be_nullable(kind);
    demand(lawful, NAME_HEAD, name.place)?;
    with_arguments(kind, name, enums)
}

fn with_arguments(kind: u32, name: &Name, enums: &EnumList) -> Result<Type, Refusal> {
    let mut arguments = Vec::new();
    for argument in &name.arguments {
        arguments.push(argument_type(kind, argument, enums)?);
    }
    Ok(Type::of(kind, arguments))
}

fn may_be_nullable(kind: u32) -> bool {
    is_value_type(kind) && kind != NULLABLE
}
