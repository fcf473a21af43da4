/* The entries for an asset builder. Link libbuilder.a, which `tools/archive` writes.

   No pointer may be NULL. One with a length of 0 may point anywhere else. What an entry writes to may overlap nothing
   else that it is given. The entries keep nothing from call to call and have no data of their own, so threads may call them
   at once, each with buffers that no other writes to. They allocate nothing, and call memcpy and memset and nothing else.

   The stack that an entry takes at most, in KB of 1,024 bytes, measured over files of the greatest depth: xnb_load 130,
   xnb_load_rows 102, xnb_load_columns 102, xnb_rewrite 102, xnb_export_xml 126, xnb_load_driver 358, xnb_report_add 103; every
   other entry 1.

   A packed answer is the refusal's number (0 if there is none) times 2 to the 32, plus the refusal's place, or the number
   of rows. Any other answer is the refusal's number, or 0; those of xnb_version, xnb_next, xnb_columns_next and
   xnb_pack_find are described there. */
#ifndef XNB_H
#define XNB_H

#include <stddef.h>
#include <stdint.h>

/* The version of this header, as a text and as the number that xnb_version answers. */
#define XNB_VERSION "0.1.0"
#define XNB_VERSION_NUMBER 100

/* Limits and sizes: the bytes of an XNB file; the words of a row and the rows that a table has room for at most; for a pack
   the words of a file in its table, its files, the bytes of a path; the words of a skipped stretch and how many there are at
   most; the words of a report. */
#define XNB_LONGEST_FILE 16777216
#define XNB_WORDS_PER_ROW 7
#define XNB_MOST_ROWS 65536
#define XNB_WORDS_PER_PACK_FILE 4
#define XNB_MOST_PACK_FILES 4096
#define XNB_LONGEST_PATH 260
#define XNB_WORDS_PER_STRETCH 2
#define XNB_MOST_STRETCHES 4097
#define XNB_WORDS_PER_REPORT 132

/* The words of a row by place: words[XNB_WORDS_PER_ROW * row + XNB_WORD_KIND], in columns words[room * XNB_WORD_KIND + row]. */
enum xnb_word {
    XNB_WORD_KIND = 0,     /* one of the kinds below */
    XNB_WORD_FIRST = 1,    /* the place of the value's first byte in the file; an object's is that of its type id, a level's
                              that of its size */
    XNB_WORD_LENGTH = 2,   /* its number of bytes from there on */
    XNB_WORD_CHILDREN = 3, /* its number of children */
    XNB_WORD_PARENT = 4,   /* its parent's row number plus 1, or 0 */
    XNB_WORD_DETAIL = 5,   /* the type id of an object that is not null, the resource id of a reference, else 0 */
    XNB_WORD_ROWS = 6      /* its number of rows with all below it, itself included */
};

/* Each kind of a value: its name, its number, what it is. */
#define XNB_EACH_KIND(X) \
    X(XNB_KIND_NULL, 0, "an object that is missing") \
    X(XNB_KIND_BYTE, 1, "a whole number from 0 to 255") \
    X(XNB_KIND_SBYTE, 2, "a whole number from -128 to 127") \
    X(XNB_KIND_INT16, 3, "a whole number of two bytes") \
    X(XNB_KIND_UINT16, 4, "a whole number of two bytes without a sign") \
    X(XNB_KIND_INT32, 5, "a whole number of four bytes") \
    X(XNB_KIND_UINT32, 6, "a whole number of four bytes without a sign") \
    X(XNB_KIND_INT64, 7, "a whole number of eight bytes") \
    X(XNB_KIND_UINT64, 8, "a whole number of eight bytes without a sign") \
    X(XNB_KIND_SINGLE, 9, "a floating-point number of four bytes") \
    X(XNB_KIND_DOUBLE, 10, "a floating-point number of eight bytes") \
    X(XNB_KIND_BOOLEAN, 11, "true or false") \
    X(XNB_KIND_CHAR, 12, "a character of one to three bytes of UTF-8") \
    X(XNB_KIND_STRING, 13, "a text in UTF-8 behind its number of bytes") \
    X(XNB_KIND_ENUM, 15, "a whole number that means a name") \
    X(XNB_KIND_NULLABLE, 16, "a value that may be missing") \
    X(XNB_KIND_ARRAY, 17, "elements of one type behind their number") \
    X(XNB_KIND_LIST, 18, "elements of one type behind their number") \
    X(XNB_KIND_DICTIONARY, 19, "pairs of a key and a value behind their number") \
    X(XNB_KIND_TIME_SPAN, 20, "a length of time in ticks of 100 nanoseconds") \
    X(XNB_KIND_DATE_TIME, 21, "a moment in ticks of 100 nanoseconds from the year 1 on, and its zone") \
    X(XNB_KIND_DECIMAL, 22, "a decimal number of up to 28 places behind the point") \
    X(XNB_KIND_VECTOR2, 23, "two Single numbers, x and y") \
    X(XNB_KIND_VECTOR3, 24, "three Single numbers, x, y and z") \
    X(XNB_KIND_VECTOR4, 25, "four Single numbers, x, y, z and w") \
    X(XNB_KIND_MATRIX, 26, "sixteen Single numbers, row by row") \
    X(XNB_KIND_QUATERNION, 27, "four Single numbers, x, y, z and w") \
    X(XNB_KIND_COLOR, 28, "red, green, blue and alpha, a byte each") \
    X(XNB_KIND_POINT, 29, "two Int32 numbers, x and y") \
    X(XNB_KIND_RECTANGLE, 30, "four Int32 numbers, x, y, width and height") \
    X(XNB_KIND_TEXTURE2D, 32, "a picture with its levels") \
    X(XNB_KIND_SPRITE_FONT, 33, "a font: a picture of glyphs and how to set them") \
    X(XNB_KIND_PAGE, 34, "a page of the console: title, area, picture and next page") \
    X(XNB_KIND_IMAGE_LEVEL, 35, "one level of a texture") \
    X(XNB_KIND_SHARED_REFERENCE, 36, "a reference to a shared object") \
    X(XNB_KIND_INDEX_BUFFER, 37, "the numbers of vertices, in the order in which they are drawn") \
    X(XNB_KIND_VERTEX_DECLARATION, 38, "what a vertex consists of") \
    X(XNB_KIND_VERTEX_BUFFER, 39, "vertices and what they consist of") \
    X(XNB_KIND_MODEL, 40, "bones, and meshes that hang on them") \
    X(XNB_KIND_DATA_BYTES, 41, "the data of an index buffer or of a vertex buffer") \
    X(XNB_KIND_BONE_REFERENCE, 42, "a reference to a bone of the model")

/* Each refusal: its name, its number, its rule. Its place is a byte of what is read, but for 21 (the bytes that the output
   needs), 52 (the stretches that the list needs), 23, 24, 62 and 63 (a row number), 32 (an entry of the enum list, counted from
   0), 71 and 72 (always 0). 33 to 38 are those of a reader's name. */
#define XNB_EACH_REFUSAL(X) \
    X(XNB_REFUSAL_PAST_END, 1, "a field runs past the end of the file") \
    X(XNB_REFUSAL_NOT_XNB, 2, "the file does not begin with XNB") \
    X(XNB_REFUSAL_PLATFORM, 3, "the platform is not w, m or x") \
    X(XNB_REFUSAL_FORMAT_VERSION, 4, "the format version is not 5") \
    X(XNB_REFUSAL_COMPRESSED, 5, "the file is compressed") \
    X(XNB_REFUSAL_FLAGS, 6, "a flag other than the profile is set") \
    X(XNB_REFUSAL_FILE_LENGTH, 7, "the header's length is not the file's length") \
    X(XNB_REFUSAL_BROKEN_NUMBER, 8, "a seven-bit number has a wrong fifth byte") \
    X(XNB_REFUSAL_TOO_LARGE, 9, "the file, a count or a name's length is over its limit, or a name is empty") \
    X(XNB_REFUSAL_NAME_HEAD, 11, "a reader's name has an unknown type or wrong arguments") \
    X(XNB_REFUSAL_READER_VERSION, 12, "a reader's version is not 0") \
    X(XNB_REFUSAL_NO_READER, 13, "a type id is past the reader list, or its reader is never invoked") \
    X(XNB_REFUSAL_NOT_DECLARED, 14, "an object is not of the declared type") \
    X(XNB_REFUSAL_BAD_VALUE, 15, "a value breaks the rule of its kind") \
    X(XNB_REFUSAL_NO_RESOURCE, 16, "a resource id is above the shared count") \
    X(XNB_REFUSAL_RESOURCE_TYPE, 17, "a resource is of the wrong type") \
    X(XNB_REFUSAL_TOO_DEEP, 18, "a value is deeper than 32") \
    X(XNB_REFUSAL_NO_ROW_LEFT, 19, "no row is left for a value") \
    X(XNB_REFUSAL_LEFT_OVER, 20, "bytes are left over behind the last object") \
    X(XNB_REFUSAL_OUTPUT_TOO_SMALL, 21, "the output is too small for what is written") \
    X(XNB_REFUSAL_FONT_RULE, 22, "a font lacks an object, or its lists differ in count, or its characters do not rise") \
    X(XNB_REFUSAL_NO_SUCH_ROW, 23, "there is no such row") \
    X(XNB_REFUSAL_OTHER_KIND, 24, "the row is not of the kind asked for") \
    X(XNB_REFUSAL_NO_TABLE_ROOM, 31, "the table has no room for a file") \
    X(XNB_REFUSAL_ENUM_ENTRY, 32, "an entry of the enum list is cut short, or its size or its name breaks a rule") \
    X(XNB_REFUSAL_EMPTY_HEAD, 33, "empty head") \
    X(XNB_REFUSAL_HEAD_BYTE, 34, "bad byte in a head") \
    X(XNB_REFUSAL_ARGUMENT_DIGIT, 35, "digit not 1 or 2") \
    X(XNB_REFUSAL_ARGUMENT_BRACKETS, 36, "argument brackets out of form or followed by a wrong byte") \
    X(XNB_REFUSAL_TAIL_BYTE, 37, "bad byte in a tail") \
    X(XNB_REFUSAL_NESTED_TOO_DEEP, 38, "nested past 8") \
    X(XNB_REFUSAL_NOT_WINDOWS, 41, "the platform is not w, which the driver's screen asks for") \
    X(XNB_REFUSAL_NOT_SHORTEST, 42, "a seven-bit number is not in its shortest form") \
    X(XNB_REFUSAL_UNUSED_READER, 43, "a listed reader is used by no type id") \
    X(XNB_REFUSAL_EQUAL_READERS, 44, "a reader has the target of an earlier one") \
    X(XNB_REFUSAL_REPEATED_KEY, 45, "a String key has the bytes of an earlier one in its dictionary") \
    X(XNB_REFUSAL_NOT_PAGE, 46, "the first object is not a Page") \
    X(XNB_REFUSAL_NO_NEXT_PAGE, 47, "the next of a page has resource id 0") \
    X(XNB_REFUSAL_MISSING_MARK, 51, "a file's record does not begin with a mark") \
    X(XNB_REFUSAL_LIST_TOO_SHORT, 52, "the list is too short for the skipped stretches") \
    X(XNB_REFUSAL_NOT_TEXT_ARRAY, 61, "the primary object is not an Array of String, or there are shared objects") \
    X(XNB_REFUSAL_NULL_TEXT, 62, "a text is null") \
    X(XNB_REFUSAL_NOT_IN_XML, 63, "a text has a character below 20 hex, U+FFFE or U+FFFF, which XML cannot hold") \
    X(XNB_REFUSAL_NOT_EXPORTED, 64, "the XML is not of the form that the export writes") \
    X(XNB_REFUSAL_FIGURE_TOO_LARGE, 71, "a figure of the report would pass 2 to the 64 less 1") \
    X(XNB_REFUSAL_NO_ROW_ROOM, 72, "the row table has no room for 65,536 rows")

#define XNB_CONSTANT(name, number, words) name = number,
enum xnb_kind { XNB_EACH_KIND(XNB_CONSTANT) XNB_NO_KIND = 255 };
enum xnb_refusal { XNB_EACH_REFUSAL(XNB_CONSTANT) XNB_NO_REFUSAL = 0 };
#undef XNB_CONSTANT

#define XNB_WORDS(name, number, words) \
    case number: \
        return words;

/* What a value of this kind is, in words; an empty text for another number. */
static inline const char *xnb_kind_text(uint32_t kind) {
    switch (kind) {
        XNB_EACH_KIND(XNB_WORDS)
    default:
        return "";
    }
}

/* The rule of this refusal in words; an empty text for another number. */
static inline const char *xnb_refusal_text(uint32_t refusal) {
    switch (refusal) {
        XNB_EACH_REFUSAL(XNB_WORDS)
    default:
        return "";
    }
}
#undef XNB_WORDS

#ifdef __cplusplus
extern "C" {
#endif

/* The version of the library that is linked: 10,000 times the first number, plus 100 times the second, plus the third. It is
   XNB_VERSION_NUMBER where the library is that of this header. */
uint32_t xnb_version(void);

/* Loads an XNB file with room for 1,024 rows and no enum types listed. The answer is packed. */
uint64_t xnb_load(const uint8_t *file, size_t file_length);

/* The entries that load take a list of enum types: for each a byte with the length of its name, the name, and a byte with its
   size, which is 1, 2, 4 or 8. An enum type that is not listed has four bytes and is known as no argument; an empty list is
   lawful. 32 refuses a list before all else, and its place is the number, from 0 and modulo 2 to the 32, of the first entry
   that is cut short, has another size, or whose name is no head of a reader's name, is a target name, or is listed earlier. */

/* The refusals of a reader's name are placed at the wrong byte, or at the name's end if it ends too soon: 33 an empty head,
   34 a bad byte in a head, 35 a digit that is not 1 or 2, 36 argument brackets out of form or followed by a wrong byte, 37 a
   bad byte in a tail, 38 a part nested past level 8, where it starts; then 11 at the leftmost head that is not known or has
   wrong arguments. */

/* Loads an XNB file into the words: seven make a row, and every word not in a used row is zero. A row is kind, first byte,
   number of bytes, number of children, the parent's row number plus 1 or 0, type id or resource id, and the number of rows
   that the value has with all below it, itself included. XNB_EACH_KIND lists the kinds. The bytes of an object begin with its
   type id, which is a seven-bit number and 0 for null, and those of a level with its size; a value that is no object has no
   type id. The children of kinds 37 to 40 are all of their fields in file order. Writes the number of readers, the shared
   count and the padding: how many bytes the seven-bit numbers of the file have beyond their shortest forms, which is the
   file's length less that of the rewritten file. All three are 0 on a refusal. The answer is packed. */
uint64_t xnb_load_rows(const uint8_t *file, size_t file_length, const uint8_t *enums, size_t enums_length,
                       uint32_t *words, size_t words_length, uint32_t *readers, uint32_t *shared, uint32_t *padding);

/* Loads a file for the driver's own screen, as xnb_load_rows does, if it keeps the driver's rules. What xnb_load_rows refuses
   is refused with the same answer; then the rules are judged one after the other, and the first that is broken decides:
   41 the platform is not `w` (at 3); 42 a seven-bit number is not in its shortest form (at the number); 43 no type id
   names a listed reader (at the first byte of the reader's name); 44 a reader has the target of an earlier one (at the first
   byte of the later one's name); 45 a String key has the bytes of an earlier key of its dictionary (at the later key's first
   byte, the lowest of all dictionaries); 46 the first object is no Page (at its first byte); 47 a page's next has resource id
   0 (at the reference). Of one rule the lowest place decides. After every refusal all words are zero, and so are the number of
   readers, the shared count and the padding. A dictionary of n keys takes about n log n comparisons of texts; the entry takes
   256 KB more of stack than xnb_load_rows. */
uint64_t xnb_load_driver(const uint8_t *file, size_t file_length, const uint8_t *enums, size_t enums_length,
                         uint32_t *words, size_t words_length, uint32_t *readers, uint32_t *shared, uint32_t *padding);

/* Writes the file, with each seven-bit number in its shortest form and the header's length set, to the start of `out`, and
   leaves in the words what loading the file leaves. The answer is packed, with the length of the rewritten file in place of
   the number of rows. On a refusal `out` is unchanged and the words are zero; 21 says that `out` is too short, and its place
   is the number of bytes needed, which is never more than the file has. */
uint64_t xnb_rewrite(const uint8_t *file, size_t file_length, const uint8_t *enums, size_t enums_length,
                     uint32_t *words, size_t words_length, uint8_t *out, size_t out_length);

/* The lookups below take the file and the words that it was loaded into, and a row number, which counts from 0. They
   refuse with 23 a row that names no part of the file, and all but xnb_part with 24 a row that is not of the kind asked
   for. On a refusal they write 0. */

/* Writes where the part of a row begins in the file, and its length. */
uint32_t xnb_part(const uint8_t *file, size_t file_length, const uint32_t *words, size_t words_length,
                  uint32_t row, size_t *first, size_t *length);

/* Writes where the bytes of a text, kind 13, begin in the file, and how many they are. */
uint32_t xnb_text(const uint8_t *file, size_t file_length, const uint32_t *words, size_t words_length,
                  uint32_t row, size_t *first, size_t *length);

/* Writes the signed number of a row of kind 2, 3, 5, 7 or 20. */
uint32_t xnb_signed(const uint8_t *file, size_t file_length, const uint32_t *words, size_t words_length,
                    uint32_t row, int64_t *value);

/* Writes the time of a row of kind 20: whole seconds, rounded down, and 0 to 9,999,999 ticks. */
uint32_t xnb_time(const uint8_t *file, size_t file_length, const uint32_t *words, size_t words_length,
                  uint32_t row, int64_t *seconds, uint32_t *ticks);

/* The row number behind a row and all below it, in words of any content: the row's number plus its seventh word. It is 0 if
   the row is not below the room, which is the number of whole rows in the words and at most 65,536, or if the seventh word is
   0 or ends past the room. It is no refusal's number. */
uint32_t xnb_next(const uint32_t *words, size_t words_length, uint32_t row);

/* The entries below have the rows of the entries above in columns: all kinds first, then all first bytes, and so on in the
   order of a row's seven words. Each column is as long as the room, which is the number of words divided by seven, rounded
   down, and at most 65,536: word j of row i, both counted from 0, is words[i + room * j]. */

/* Loads an XNB file as xnb_load_rows does: with the same list and as many words given, every answer is the same and every row has the same
   number. Every word of a row that is not used is zero, and so is every word in excess of the seven columns; on a refusal
   all words are zero. */
uint64_t xnb_load_columns(const uint8_t *file, size_t file_length, const uint8_t *enums, size_t enums_length,
                          uint32_t *words, size_t words_length, uint32_t *readers, uint32_t *shared, uint32_t *padding);

/* As xnb_part, in words that xnb_load_columns left. */
uint32_t xnb_columns_part(const uint8_t *file, size_t file_length, const uint32_t *words, size_t words_length,
                          uint32_t row, size_t *first, size_t *length);

/* As xnb_text, in words that xnb_load_columns left. */
uint32_t xnb_columns_text(const uint8_t *file, size_t file_length, const uint32_t *words, size_t words_length,
                          uint32_t row, size_t *first, size_t *length);

/* As xnb_signed, in words that xnb_load_columns left. */
uint32_t xnb_columns_signed(const uint8_t *file, size_t file_length, const uint32_t *words, size_t words_length,
                            uint32_t row, int64_t *value);

/* As xnb_time, in words that xnb_load_columns left. */
uint32_t xnb_columns_time(const uint8_t *file, size_t file_length, const uint32_t *words, size_t words_length,
                          uint32_t row, int64_t *seconds, uint32_t *ticks);

/* As xnb_next, in words of any content that are read in columns. */
uint32_t xnb_columns_next(const uint32_t *words, size_t words_length, uint32_t row);

/* The entries below take a pack of any length: a count of files in four bytes, and for each file a path behind its length
   as a seven-bit number, its size in four bytes, and its data. A table has four words for each file: where its path starts,
   the path's length, where its data starts, the data's length. */

/* Reads a pack of at most 4,096 files into the table, and writes the number of files to `at`. Every word that is not in an
   entry is zero. On a refusal, of which the answer is the number, `at` is its place and every word is zero: 1 the file count
   is cut short (at 0), a path or its length (at the path's length), a size or its data (at the size); 8 a path's length is a
   broken seven-bit number; 9 there are over 4,096 files (at 0), or a path is not of 1 to 260 bytes; 15 a path is not UTF-8
   (these three at the path's length); 20 bytes are left over (at the first); 31 the table has no room for a file (at the
   file's start, before its path is looked at). The data is skipped. */
uint32_t xnb_pack_read(const uint8_t *pack, size_t pack_length, uint64_t *table, size_t table_length, uint64_t *at);

/* The same for a marked pack, which has the two bytes FD FE hex before each file's path length. Its table holds places in
   the marked pack. Behind 31 and before the path come 1, the mark is cut short, and 51, the record does not start with its
   mark, both at the mark. */
uint32_t xnb_marked_read(const uint8_t *pack, size_t pack_length, uint64_t *table, size_t table_length, uint64_t *at);

/* Writes a pack with its marks to the start of `out`, every other byte as it was found, and writes the new pack's length to
   `at`; bytes of `out` past it stay. On a refusal, of which the answer is the number, `at` is its place and `out` is
   unchanged: those of xnb_pack_read but 31, then 21 says that `out` is too short, and its place is the number of bytes
   needed. */
uint32_t xnb_pack_mark(const uint8_t *pack, size_t pack_length, uint8_t *out, size_t out_length, uint64_t *at);

/* The same from a marked pack to one without marks, with the refusals of xnb_marked_read in place of xnb_pack_read's. */
uint32_t xnb_pack_unmark(const uint8_t *pack, size_t pack_length, uint8_t *out, size_t out_length, uint64_t *at);

/* Writes the records that a damaged marked pack still holds, as a marked pack, to the start of `out`, and writes its length
   to `at`. The skipped stretches go to the start of `list` in file order, two words each, the start in the pack and the
   length, and their number to `stretches`. Bytes of `out` and words of `list` past them stay. From byte 4 on a mark with a
   whole record behind it is kept, and any other byte is skipped; behind the 4,096th record all is skipped. On a refusal, of
   which the answer is the number, `at` is its place, `stretches` is 0, and `out` and `list` are unchanged: 1 the pack has
   under four bytes (at 0); 21 `out` is too short, and its place is the number of bytes needed, which is never more than the
   pack has; 52 `list` is too short, and its place is the number of stretches needed, which is never more than 4,097. */
uint32_t xnb_pack_salvage(const uint8_t *pack, size_t pack_length, uint8_t *out, size_t out_length,
                          uint64_t *list, size_t list_length, uint64_t *at, uint64_t *stretches);

/* Finds the first entry of the table whose path is the one given, ASCII letters of both being lowered. The table may hold any
   words: an entry whose path has length 0, or whose path or data runs past the pack, is passed over. Writes where the data
   starts in the pack and its length, and answers 1; or writes 0 twice and answers 0. */
uint32_t xnb_pack_find(const uint8_t *pack, size_t pack_length, const uint64_t *table, size_t table_length,
                       const uint8_t *path, size_t path_length, uint64_t *first, uint64_t *length);

/* The two entries below are for text lists as XML: <?xml version="1.0" encoding="utf-8"?><XnaContent><Asset Type="string[]">,
   then <Item>, the text and </Item> for each text, then </Asset></XnaContent>, with nothing between. In a text the characters
   &, <, > and " are written &amp; &lt; &gt; &quot; and every other one as its UTF-8 bytes. */

/* Loads an XNB file as xnb_load_rows does, and writes the XML of its texts to the start of `out`; bytes of `out` past it stay,
   and the words are left as loading leaves them. The answer is packed, with the length of the XML in place of the number of
   rows. On a refusal `out` is unchanged and the words are zero: first those of a load, 32 before all else; then 61 the file
   has shared objects or its first object is no Array of String (at that object's first byte); 62 a text is null, or 63 has
   a character below 20 hex, U+FFFE or U+FFFF, whichever text is the first such (at its row number); last 21 `out` is too
   short, and its place is the number of bytes needed, which may be more than the file has. */
uint64_t xnb_export_xml(const uint8_t *file, size_t file_length, const uint8_t *enums, size_t enums_length,
                        uint32_t *words, size_t words_length, uint8_t *out, size_t out_length);

/* Takes XML of any length that xnb_export_xml can write, size apart, and writes the shortest XNB file with its texts to the
   start of `out`: platform w, flags 0, two readers, of an Array of System.String and of String. Writes the file's length to
   `at`; bytes of `out` past it stay. On a refusal, of which the answer is the number, `at` is its place and `out` is
   unchanged: 64 the XML is not of this form (at the first byte where no such XML agrees, or at its end if it stops short);
   then 9 there are over 65,535 texts or the file has over 16,777,216 bytes (at 0); last 21 `out` is too short, and its place
   is the number of bytes needed. */
uint32_t xnb_import_xml(const uint8_t *xml, size_t xml_length, uint8_t *out, size_t out_length, uint64_t *at);

/* The entries below count what packs contain. A report is 132 words, zero at first: word 0 counts files, 1 the XNB files that
   were accepted, 2 the bytes of texts and 3 the bytes of image levels, both without counts and sizes, 4 + n the XNB files
   refused with number n, for n below 64, and 68 + k the rows of kind k, for k below 64. A file that does not start with
   `XNB` counts as a file only, and only an accepted file has rows and bytes. */

/* Adds the files of a pack, as xnb_pack_read reads it, to a report. Each XNB file is loaded under the list of enum types with
   room for 65,536 rows; a list that is refused counts 32 for each. Writes 0 to `at`. The table is left as xnb_pack_read
   leaves it, and every word of `words` is zero. On a refusal, of which the answer is the number, `at` is its place, the
   report is unchanged and every word of the table is zero: 72 `words` has no room for 65,536 rows, which are 458,752 words
   (at 0, before all else); those of xnb_pack_read; 71 a word of the report would pass 2 to the 64 less 1 (at 0). */
uint32_t xnb_report_add(const uint8_t *pack, size_t pack_length, const uint8_t *enums, size_t enums_length,
                        uint64_t *table, size_t table_length, uint32_t *words, size_t words_length,
                        uint64_t report[132], uint64_t *at);

/* Adds another report word by word. Reports of two lists of packs, made with one list of enum types and one length of table,
   add up to the report of both. The answer is 0, or 71 if a word would pass 2 to the 64 less 1; `into` is then unchanged. */
uint32_t xnb_report_sum(uint64_t into[132], const uint64_t other[132]);

#ifdef __cplusplus
}
#endif

#endif
