//! Wrong rules of Req 05.

use super::Wrong;

pub const WRONG: [Wrong; 7] = [
    Wrong {
        what: "a four-byte bone reference at 254 bones",
        file: "mesh.rs",
        right: "BONES_FOR_FOUR_BYTES: u32 = 255;",
        wrong: "BONES_FOR_FOUR_BYTES: u32 = 254;",
    },
    Wrong {
        what: "a one-byte bone reference at 255 bones",
        file: "mesh.rs",
        right: "BONES_FOR_FOUR_BYTES: u32 = 255;",
        wrong: "BONES_FOR_FOUR_BYTES: u32 = 256;",
    },
    Wrong {
        what: "the product of vertex count and stride in 32 bits",
        file: "mesh.rs",
        right: "u64::from(count) * u64::from(declaration.stride)",
        wrong: "u64::from(count.wrapping_mul(declaration.stride))",
    },
    Wrong {
        what: "index data a multiple of 2 where 4 is due",
        file: "mesh.rs",
        right: "if is_16_bit { 2 } else { 4 }",
        wrong: "if is_16_bit { 2 } else { 2 }",
    },
    Wrong {
        what: "an effect that is a texture",
        file: "mesh.rs",
        right: "self.reference(None, spot)?;",
        wrong: "self.reference(Some(crate::kinds::TEXTURE2D), spot)?;",
    },
    Wrong {
        what: "an index size judged after its data",
        file: "mesh.rs",
        right: "demand(size % index_size == 0, BAD_VALUE, start)?;
        self.data_bytes(u64::from(size), spot)?;",
        wrong: "self.data_bytes(u64::from(size), spot)?;
        demand(size % index_size == 0, BAD_VALUE, start)?;",
    },
    Wrong {
        what: "a mesh's bounds as the box that 000's table prints",
        file: "mesh.rs",
        right: "self.raw(&Type::plain(SINGLE), spot)?;",
        wrong: "self.raw(&Type::plain(VECTOR3), spot)?;",
    },
];
