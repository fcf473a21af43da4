//! Wrong rules of Req 04.

use super::Wrong;

pub const WRONG: [Wrong; 4] = [
    Wrong {
        what: "a name's faults at its first byte",
        file: "name.rs",
        right: "self.place + self.at",
        wrong: "self.place",
    },
    Wrong {
        what: "34 for an empty head",
        file: "refusal.rs",
        right: "EMPTY_HEAD: u32 = 33;",
        wrong: "EMPTY_HEAD: u32 = 34;",
    },
    Wrong {
        what: "38 after the other faults at its place",
        file: "name.rs",
        right: "self.demand_here(level <= DEEPEST_LEVEL, NESTED_TOO_DEEP)?;
        let place = self.here();
        let head = self.head()?;",
        wrong: "let place = self.here();
        let head = self.head()?;
        demand(level <= DEEPEST_LEVEL, NESTED_TOO_DEEP, place)?;",
    },
    Wrong {
        what: "11 at the owner of an unlawful argument",
        file: "types.rs",
        right: "argument_type(kind, argument, enums)?",
        wrong: "argument_type(kind, argument, enums).or(refuse(NAME_HEAD, name.place))?",
    },
];
