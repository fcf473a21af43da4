"""Loads and rewrites XNB files, and reads packs, by the proved library.

    import xnb
    table = xnb.load(open("Doors.xnb", "rb").read())
    for number, row in enumerate(table.rows):
        if row.kind == xnb.Kind.STRING:
            print(number, table.text(number))

A file or a pack that breaks a rule raises Refused, which has the refusal's number and its place.

This file needs Python 3.8 or newer and libxnb.so.0, which `make install` installs; the environment variable XNB_LIBRARY
names another file. Any number of threads may call it at once.
"""

import ctypes
import os
from ctypes import POINTER, byref, c_char_p, c_int64, c_size_t, c_uint32, c_uint64
from enum import IntEnum
from typing import Dict, List, NamedTuple

WORDS_PER_ROW = 7
MOST_ROWS = 65536
WORDS_PER_PACK_FILE = 4
MOST_PACK_FILES = 4096


class Kind(IntEnum):
    """What a row is; xnb.h has each in words."""

    NULL = 0
    BYTE = 1
    SBYTE = 2
    INT16 = 3
    UINT16 = 4
    INT32 = 5
    UINT32 = 6
    INT64 = 7
    UINT64 = 8
    SINGLE = 9
    DOUBLE = 10
    BOOLEAN = 11
    CHAR = 12
    STRING = 13
    ENUM = 15
    NULLABLE = 16
    ARRAY = 17
    LIST = 18
    DICTIONARY = 19
    TIME_SPAN = 20
    DATE_TIME = 21
    DECIMAL = 22
    VECTOR2 = 23
    VECTOR3 = 24
    VECTOR4 = 25
    MATRIX = 26
    QUATERNION = 27
    COLOR = 28
    POINT = 29
    RECTANGLE = 30
    TEXTURE2D = 32
    SPRITE_FONT = 33
    PAGE = 34
    IMAGE_LEVEL = 35
    SHARED_REFERENCE = 36
    INDEX_BUFFER = 37
    VERTEX_DECLARATION = 38
    VERTEX_BUFFER = 39
    MODEL = 40
    DATA_BYTES = 41
    BONE_REFERENCE = 42


class Refusal(IntEnum):
    """Why a file or a pack is refused; xnb.h has each in words."""

    PAST_END = 1
    NOT_XNB = 2
    PLATFORM = 3
    FORMAT_VERSION = 4
    COMPRESSED = 5
    FLAGS = 6
    FILE_LENGTH = 7
    BROKEN_NUMBER = 8
    TOO_LARGE = 9
    NAME_HEAD = 11
    READER_VERSION = 12
    NO_READER = 13
    NOT_DECLARED = 14
    BAD_VALUE = 15
    NO_RESOURCE = 16
    RESOURCE_TYPE = 17
    TOO_DEEP = 18
    NO_ROW_LEFT = 19
    LEFT_OVER = 20
    OUTPUT_TOO_SMALL = 21
    FONT_RULE = 22
    NO_SUCH_ROW = 23
    OTHER_KIND = 24
    NO_TABLE_ROOM = 31
    ENUM_ENTRY = 32
    EMPTY_HEAD = 33
    HEAD_BYTE = 34
    ARGUMENT_DIGIT = 35
    ARGUMENT_BRACKETS = 36
    TAIL_BYTE = 37
    NESTED_TOO_DEEP = 38
    NOT_WINDOWS = 41
    NOT_SHORTEST = 42
    UNUSED_READER = 43
    EQUAL_READERS = 44
    REPEATED_KEY = 45
    NOT_PAGE = 46
    NO_NEXT_PAGE = 47
    MISSING_MARK = 51
    LIST_TOO_SHORT = 52
    NOT_TEXT_ARRAY = 61
    NULL_TEXT = 62
    NOT_IN_XML = 63
    NOT_EXPORTED = 64
    FIGURE_TOO_LARGE = 71
    NO_ROW_ROOM = 72


class Refused(Exception):
    """The library refuses a file, a pack or a row."""

    def __init__(self, number: int, place: int):
        super().__init__(f"{Refusal(number).name}, refusal {number} at {place}")
        self.refusal = Refusal(number)
        self.place = place


class Row(NamedTuple):
    """A value of a file: where it is and how it hangs together."""

    kind: Kind
    first: int
    length: int
    children: int
    parent: int
    detail: int
    rows: int


_library = ctypes.CDLL(os.environ.get("XNB_LIBRARY", "libxnb.so.0"))


def _entry(name: str, answer, *parameters):
    entry = getattr(_library, name)
    entry.restype = answer
    entry.argtypes = parameters
    return entry


_BYTES = [c_char_p, c_size_t]
_WORDS = [POINTER(c_uint32), c_size_t]
_WORDS64 = [POINTER(c_uint64), c_size_t]
_LOOKUP = [*_BYTES, *_WORDS, c_uint32]
_version = _entry("xnb_version", c_uint32)
_load_rows = _entry("xnb_load_rows", c_uint64, *_BYTES, *_BYTES, *_WORDS, *[POINTER(c_uint32)] * 3)
_rewrite = _entry("xnb_rewrite", c_uint64, *_BYTES, *_BYTES, *_WORDS, *_BYTES)
_part = _entry("xnb_part", c_uint32, *_LOOKUP, POINTER(c_size_t), POINTER(c_size_t))
_text = _entry("xnb_text", c_uint32, *_LOOKUP, POINTER(c_size_t), POINTER(c_size_t))
_signed = _entry("xnb_signed", c_uint32, *_LOOKUP, POINTER(c_int64))
_pack_read = _entry("xnb_pack_read", c_uint32, *_BYTES, *_WORDS64, POINTER(c_uint64))


def version() -> int:
    """The library's version: 10,000 times the first number, plus 100 times the second, plus the third."""
    return _version()


def _unpacked(answer: int) -> int:
    """The number of rows or bytes of a packed answer."""
    if answer >> 32:
        raise Refused(answer >> 32, answer & 0xFFFFFFFF)
    return answer


class Table:
    """The rows of a file."""

    def __init__(self, file: bytes, words, count: int, readers: int, shared: int, padding: int):
        self.file = file
        self.readers = readers
        self.shared = shared
        self.padding = padding
        self._words = words
        used = words[: count * WORDS_PER_ROW]
        self.rows: List[Row] = [
            Row(Kind(used[at]), *used[at + 1 : at + WORDS_PER_ROW]) for at in range(0, len(used), WORDS_PER_ROW)
        ]

    def _lookup(self, entry, row: int, *answers) -> None:
        number = entry(self.file, len(self.file), self._words, len(self._words), row, *map(byref, answers))
        if number:
            raise Refused(number, row)

    def part(self, row: int) -> bytes:
        """The bytes of a row; those of an object begin with its type id, those of a level with its size."""
        first, length = c_size_t(), c_size_t()
        self._lookup(_part, row, first, length)
        return self.file[first.value : first.value + length.value]

    def text(self, row: int) -> str:
        """The text of a row of kind STRING."""
        first, length = c_size_t(), c_size_t()
        self._lookup(_text, row, first, length)
        return self.file[first.value : first.value + length.value].decode()

    def signed(self, row: int) -> int:
        """The number of a row of kind SBYTE, INT16, INT32, INT64 or TIME_SPAN."""
        value = c_int64()
        self._lookup(_signed, row, value)
        return value.value


def load(file: bytes, enums: bytes = b"") -> Table:
    """Loads a file; `enums` lists enum types, for each the length of its name, the name and its size."""
    words = (c_uint32 * (WORDS_PER_ROW * MOST_ROWS))()
    readers, shared, padding = c_uint32(), c_uint32(), c_uint32()
    lent = (file, len(file), enums, len(enums), words, len(words))
    count = _unpacked(_load_rows(*lent, byref(readers), byref(shared), byref(padding)))
    return Table(file, words, count, readers.value, shared.value, padding.value)


def rewrite(file: bytes, enums: bytes = b"") -> bytes:
    """The file with each seven-bit number in its shortest form."""
    words = (c_uint32 * (WORDS_PER_ROW * MOST_ROWS))()
    out = ctypes.create_string_buffer(len(file) + 1)
    answer = _rewrite(file, len(file), enums, len(enums), words, len(words), out, len(file))
    return out.raw[: _unpacked(answer)]


def read_pack(pack: bytes) -> Dict[str, bytes]:
    """The files of a pack by path; of equal paths the first."""
    table = (c_uint64 * (WORDS_PER_PACK_FILE * MOST_PACK_FILES))()
    at = c_uint64()
    number = _pack_read(pack, len(pack), table, len(table), byref(at))
    if number:
        raise Refused(number, at.value)
    files: Dict[str, bytes] = {}
    for entry in range(0, WORDS_PER_PACK_FILE * at.value, WORDS_PER_PACK_FILE):
        path_at, path_length, data_at, data_length = table[entry : entry + WORDS_PER_PACK_FILE]
        path = pack[path_at : path_at + path_length].decode()
        files.setdefault(path, pack[data_at : data_at + data_length])
    return files
