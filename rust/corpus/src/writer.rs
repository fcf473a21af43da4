//! The writer: bytes of a file, and beside them the rows and fields that were written.

/// What a field is, so that damage can be aimed at it.
#[derive(Clone, Copy, Debug, PartialEq, Eq)]
pub enum Role {
    ReaderCount,
    NameLength,
    ReaderVersion,
    SharedCount,
    /// A type id where any type is declared.
    FreeTypeId,
    /// A type id where one type is declared.
    BoundTypeId,
    ResourceId,
    TextCount,
    ElementCount,
    /// The first byte of a nullable.
    NullableFlag,
    Character,
    SurfaceFormat,
    Side,
    LevelCount,
    LevelSize,
    /// The size of index data, and what it must be a multiple of.
    IndexSize(u32),
    Stride,
    ElementFormat,
    ElementUsage,
    /// The vertex count of a buffer with this stride.
    VertexCount(u32),
    /// A bone reference in a model of so many bones.
    BoneReference(u32),
    DataBytes,
    /// A raw value of fixed size, by its kind.
    Fixed(u32),
}

/// One part of what is written, in file order.
#[derive(Clone, Debug)]
pub enum Part {
    Field(Role, Vec<u8>),
    Seven(Role, Seven),
    /// Bytes whose count or size is the field before them.
    Data(Vec<u8>),
    Child(Value),
    /// Nothing is written, but the expected refusal has its place here.
    Fault,
    /// The file ends here, whatever follows.
    End,
}

/// A seven-bit number and the number of bytes it is written in, 0 for the shortest form.
#[derive(Clone, Copy, Debug)]
pub struct Seven {
    pub value: u32,
    pub width: usize,
}

/// A value with all below it.
#[derive(Clone, Debug)]
pub struct Value {
    pub kind: u32,
    /// The type id of an object, the resource id of a reference, else 0.
    pub detail: u32,
    pub parts: Vec<Part>,
}

/// A file to be written.
#[derive(Clone, Debug)]
pub struct File {
    /// Magic, platform, version and flags.
    pub start: [u8; 6],
    /// What is added to the true length in the header.
    pub length_error: i32,
    pub reader_count: Vec<Part>,
    pub readers: Vec<Vec<Part>>,
    pub shared_count: Vec<Part>,
    /// The primary object and the shared objects.
    pub objects: Vec<Value>,
    /// Bytes after the last object.
    pub rest: Vec<u8>,
}

pub const WORDS_PER_ROW: usize = 7;

/// A row: kind, first byte, length, children, parent plus 1, detail, number of rows with all below it.
pub type Row = [u32; WORDS_PER_ROW];

/// A field that was written.
#[derive(Clone, Copy, Debug)]
pub struct Field {
    pub role: Role,
    pub start: usize,
    pub end: usize,
    /// The end of the bytes that it counts, or its own end.
    pub data_end: usize,
}

/// A written file and what is known of it.
#[derive(Clone, Debug, Default)]
pub struct Written {
    pub bytes: Vec<u8>,
    pub rows: Vec<Row>,
    pub fields: Vec<Field>,
    pub readers: usize,
    pub shared: usize,
    /// How many bytes the seven-bit numbers have more than their shortest forms.
    pub padding: usize,
    /// The place marked as the expected refusal's.
    pub fault: Option<usize>,
}

impl File {
    /// Hands on each seven-bit number, in file order, to be changed.
    pub fn each_seven(&mut self, change: &mut dyn FnMut(Role, &mut Seven)) {
        each_seven(&mut self.reader_count, change);
        for reader in &mut self.readers {
            each_seven(reader, change);
        }
        each_seven(&mut self.shared_count, change);
        for object in &mut self.objects {
            each_seven(&mut object.parts, change);
        }
    }
}

/// Hands on each seven-bit number among the parts and below them.
pub fn each_seven(parts: &mut [Part], change: &mut dyn FnMut(Role, &mut Seven)) {
    for part in parts {
        match part {
            Part::Seven(role, seven) => change(*role, seven),
            Part::Child(child) => each_seven(&mut child.parts, change),
            _ => {}
        }
    }
}

impl Seven {
    /// How many bytes it is written in more than its shortest form has.
    pub fn padding(self) -> usize {
        let shortest = Seven { width: 0, ..self };
        seven_bytes(self).len() - seven_bytes(shortest).len()
    }
}

/// The bytes of a seven-bit number.
pub fn seven_bytes(seven: Seven) -> Vec<u8> {
    let mut bytes = vec![(seven.value & 0x7F) as u8];
    let mut rest = seven.value >> 7;
    while rest > 0 || bytes.len() < seven.width {
        *bytes.last_mut().expect("a number has a byte") |= 0x80;
        bytes.push((rest & 0x7F) as u8);
        rest >>= 7;
    }
    bytes
}

/// Writes a file with its true length in the header, plus the length error.
pub fn write(file: &File) -> Written {
    let mut writer = Writer::default();
    writer.bytes.extend_from_slice(&file.start);
    writer.bytes.extend_from_slice(&[0; 4]);
    writer.parts(&file.reader_count, None);
    for reader in &file.readers {
        writer.parts(reader, None);
    }
    writer.parts(&file.shared_count, None);
    for object in &file.objects {
        writer.value(object, None);
    }
    writer.bytes.extend_from_slice(&file.rest);
    if let Some(end) = writer.end {
        writer.bytes.truncate(end);
    }
    set_length(&mut writer.bytes, file.length_error);
    Written {
        bytes: writer.bytes,
        rows: writer.rows,
        fields: writer.fields,
        readers: file.readers.len(),
        shared: file.objects.len() - 1,
        padding: writer.padding,
        fault: writer.fault,
    }
}

/// Puts the file's length plus an error into the header, if there is a whole header.
pub fn set_length(bytes: &mut [u8], error: i32) {
    let length = (bytes.len() as u32).wrapping_add_signed(error);
    if let Some(field) = bytes.get_mut(6..10) {
        field.copy_from_slice(&length.to_le_bytes());
    }
}

#[derive(Default)]
struct Writer {
    bytes: Vec<u8>,
    rows: Vec<Row>,
    fields: Vec<Field>,
    padding: usize,
    fault: Option<usize>,
    end: Option<usize>,
}

impl Writer {
    /// Writes a value and all below it, and answers how many rows that are; its row stands before theirs.
    fn value(&mut self, value: &Value, parent: Option<usize>) -> u32 {
        let start = self.bytes.len() as u32;
        let number = self.rows.len();
        let parent_word = parent.map_or(0, |row| row as u32 + 1);
        self.rows
            .push([value.kind, start, 0, 0, parent_word, value.detail, 0]);
        let rows = 1 + self.parts(&value.parts, Some(number));
        self.rows[number][2] = self.bytes.len() as u32 - start;
        self.rows[number][6] = rows;
        rows
    }

    /// Writes parts and answers how many rows they have.
    fn parts(&mut self, parts: &[Part], owner: Option<usize>) -> u32 {
        let mut rows = 0;
        for part in parts {
            match part {
                Part::Field(role, bytes) => self.field(*role, bytes),
                Part::Seven(role, seven) => {
                    self.padding += seven.padding();
                    self.field(*role, &seven_bytes(*seven));
                }
                Part::Data(bytes) => self.data(bytes),
                Part::Child(child) => rows += self.child(child, owner),
                Part::Fault => self.fault = Some(self.bytes.len()),
                Part::End => self.end = Some(self.bytes.len()),
            }
        }
        rows
    }

    fn field(&mut self, role: Role, bytes: &[u8]) {
        let start = self.bytes.len();
        self.bytes.extend_from_slice(bytes);
        let end = self.bytes.len();
        self.fields.push(Field {
            role,
            start,
            end,
            data_end: end,
        });
    }

    /// Writes bytes that belong to the field before them.
    fn data(&mut self, bytes: &[u8]) {
        self.bytes.extend_from_slice(bytes);
        let field = self.fields.last_mut().expect("data follows its count");
        field.data_end = self.bytes.len();
    }

    fn child(&mut self, child: &Value, owner: Option<usize>) -> u32 {
        let owner = owner.expect("only values have children");
        self.rows[owner][3] += 1;
        self.value(child, Some(owner))
    }
}
