//! Target types: what a reader makes and what a place declares.

use crate::enums::EnumList;
use crate::kinds::{
    argument_count, fixed_size, kind_of_reader, kind_of_target, may_be_nullable, DICTIONARY, ENUM,
    LIST, NULLABLE,
};
use crate::names::Name;
use crate::refusal::{refuse, Refusal, NAME_HEAD};

/// "EnumReader for a listed name takes that size, for others four."
const UNLISTED_SIZE: u8 = 4;

/// A target type; its arguments are numbers of types in the list of all types.
#[derive(Clone, Copy)]
pub struct Type {
    pub kind: u8,
    /// 0 where values have no fixed size.
    pub size: u8,
    pub arguments: [u16; 2],
    /// The place and the length of an enum's name, which tells it from other enums.
    name: u32,
    name_length: u16,
}

impl Type {
    /// A type without arguments.
    pub fn plain(kind: u8) -> Type {
        Type {
            kind,
            size: fixed_size(kind),
            arguments: [0; 2],
            name: 0,
            name_length: 0,
        }
    }

    fn name(self, file: &[u8]) -> &[u8] {
        let start = self.name as usize;
        &file[start..start + usize::from(self.name_length)]
    }
}

/// Whether two types of the list are the same.
pub fn are_same(file: &[u8], types: &[Type], one: u16, other: u16) -> bool {
    if one == other {
        return true;
    }
    let (a, b) = (types[usize::from(one)], types[usize::from(other)]);
    let arguments_are_same = |count: usize| {
        let mut pairs = a.arguments.iter().zip(b.arguments).take(count);
        pairs.all(|(&one, other)| are_same(file, types, one, other))
    };
    a.kind == b.kind
        && match a.kind {
            ENUM => a.name(file) == b.name(file),
            NULLABLE..=LIST => arguments_are_same(1),
            DICTIONARY => arguments_are_same(2),
            _ => true,
        }
}

/// Makes types of names, and puts them at the end of the list of all types.
pub struct Maker<'m> {
    pub file: &'m [u8],
    /// The names that are left.
    pub names: std::slice::Iter<'m, Name>,
    pub enums: &'m EnumList<'m>,
    pub types: &'m mut Vec<Type>,
}

/// The number of the type that was made.
type Made = Result<u16, Refusal>;

impl<'m> Maker<'m> {
    /// The target type of a reader; 11 is placed at the first head that is wrong.
    pub fn reader_target(&mut self) -> Made {
        let (name, head) = self.next();
        match kind_of_reader(head) {
            Some(kind) if argument_count(kind) != name.arguments => wrong_head(name),
            Some(ENUM) => {
                let (name, head) = self.next();
                self.enum_target(name, head)
            }
            Some(kind) => self.with_arguments(kind),
            None => wrong_head(name),
        }
    }

    /// The next name and its head.
    fn next(&mut self) -> (Name, &'m [u8]) {
        let name = *self.names.next().expect("a name for each argument");
        let start = name.at as usize;
        (name, &self.file[start..start + usize::from(name.length)])
    }

    /// An enum has any head that is no target name, and no arguments.
    fn enum_target(&mut self, name: Name, head: &[u8]) -> Made {
        if kind_of_target(head).is_some() || name.arguments != 0 {
            return wrong_head(name);
        }
        Ok(self.put(Type {
            size: self.enums.size(head).unwrap_or(UNLISTED_SIZE),
            name: name.at,
            name_length: name.length,
            ..Type::plain(ENUM)
        }))
    }

    /// "A listed name is a known value type in arguments."
    fn argument(&mut self, owner: u8) -> Made {
        let (name, head) = self.next();
        if self.enums.size(head).is_some() {
            return self.enum_target(name, head);
        }
        match kind_of_target(head) {
            Some(kind) if argument_count(kind) != name.arguments => wrong_head(name),
            Some(kind) if owner == NULLABLE && !may_be_nullable(kind) => wrong_head(name),
            Some(kind) => self.with_arguments(kind),
            None => wrong_head(name),
        }
    }

    fn with_arguments(&mut self, kind: u8) -> Made {
        let number = self.put(Type::plain(kind));
        for i in 0..argument_count(kind) {
            let argument = self.argument(kind)?;
            self.types[usize::from(number)].arguments[usize::from(i)] = argument;
        }
        Ok(number)
    }

    fn put(&mut self, made: Type) -> u16 {
        self.types.push(made);
        (self.types.len() - 1) as u16
    }
}

fn wrong_head<T>(name: Name) -> Result<T, Refusal> {
    refuse(NAME_HEAD, name.at as usize)
}
