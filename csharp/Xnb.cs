// Loads and rewrites XNB files, and reads packs, by the proved library.
//
//     Table table = Table.Load(File.ReadAllBytes("Doors.xnb"));
//     for (int row = 0; row < table.Rows.Length; row++)
//         if (table.Rows[row].Kind == Kind.String)
//             Console.WriteLine(table.Text(row));
//
// A file or a pack that breaks a rule throws RefusedException, which has the refusal and its place.
//
// This file needs libxnb.so, which `make install` installs, and a process of 64 bits. Threads may call it at once.
using System;
using System.Collections.Generic;
using System.Runtime.InteropServices;
using System.Text;

namespace Xnb
{
    /// <summary>What a row is; xnb.h has each in words.</summary>
    public enum Kind : uint
    {
        Null = 0,
        Byte = 1,
        SByte = 2,
        Int16 = 3,
        UInt16 = 4,
        Int32 = 5,
        UInt32 = 6,
        Int64 = 7,
        UInt64 = 8,
        Single = 9,
        Double = 10,
        Boolean = 11,
        Char = 12,
        String = 13,
        Enum = 15,
        Nullable = 16,
        Array = 17,
        List = 18,
        Dictionary = 19,
        TimeSpan = 20,
        DateTime = 21,
        Decimal = 22,
        Vector2 = 23,
        Vector3 = 24,
        Vector4 = 25,
        Matrix = 26,
        Quaternion = 27,
        Color = 28,
        Point = 29,
        Rectangle = 30,
        Texture2D = 32,
        SpriteFont = 33,
        Page = 34,
        ImageLevel = 35,
        SharedReference = 36,
        IndexBuffer = 37,
        VertexDeclaration = 38,
        VertexBuffer = 39,
        Model = 40,
        DataBytes = 41,
        BoneReference = 42,
    }

    /// <summary>Why a file or a pack is refused; xnb.h has each in words.</summary>
    public enum Refusal : uint
    {
        PastEnd = 1,
        NotXnb = 2,
        Platform = 3,
        FormatVersion = 4,
        Compressed = 5,
        Flags = 6,
        FileLength = 7,
        BrokenNumber = 8,
        TooLarge = 9,
        NameHead = 11,
        ReaderVersion = 12,
        NoReader = 13,
        NotDeclared = 14,
        BadValue = 15,
        NoResource = 16,
        ResourceType = 17,
        TooDeep = 18,
        NoRowLeft = 19,
        LeftOver = 20,
        OutputTooSmall = 21,
        FontRule = 22,
        NoSuchRow = 23,
        OtherKind = 24,
        NoTableRoom = 31,
        EnumEntry = 32,
        EmptyHead = 33,
        HeadByte = 34,
        ArgumentDigit = 35,
        ArgumentBrackets = 36,
        TailByte = 37,
        NestedTooDeep = 38,
        NotWindows = 41,
        NotShortest = 42,
        UnusedReader = 43,
        EqualReaders = 44,
        RepeatedKey = 45,
        NotPage = 46,
        NoNextPage = 47,
        MissingMark = 51,
        ListTooShort = 52,
        NotTextArray = 61,
        NullText = 62,
        NotInXml = 63,
        NotExported = 64,
        FigureTooLarge = 71,
        NoRowRoom = 72,
    }

    /// <summary>The library refuses a file, a pack or a row.</summary>
    public sealed class RefusedException : Exception
    {
        public Refusal Refusal { get; private set; }
        public ulong Place { get; private set; }

        internal RefusedException(uint number, ulong place)
            : base(string.Format("{0}, refusal {1} at {2}", (Refusal)number, number, place))
        {
            Refusal = (Refusal)number;
            Place = place;
        }
    }

    /// <summary>A value of a file: where it is and how it hangs together.</summary>
    public struct Row
    {
        public Kind Kind;
        public uint First;
        public uint Length;
        public uint Children;
        /// <summary>The parent's row number plus 1, or 0.</summary>
        public uint Parent;
        /// <summary>The type id of an object, the resource id of a reference, else 0.</summary>
        public uint Detail;
        /// <summary>The number of rows with all below it, itself included.</summary>
        public uint Rows;
    }

    /// <summary>The rows of a file.</summary>
    public sealed class Table
    {
        const int WordsPerRow = 7;
        const int MostRows = 65536;

        readonly byte[] file;
        readonly uint[] words = new uint[WordsPerRow * MostRows];

        public Row[] Rows { get; private set; }
        public uint Readers { get; private set; }
        public uint Shared { get; private set; }
        public uint Padding { get; private set; }

        Table(byte[] file, byte[] enums)
        {
            this.file = file;
            uint readers, shared, padding;
            ulong answer = Native.xnb_load_rows(Native.Lent(file), Native.Length(file), Native.Lent(enums), Native.Length(enums),
                words, Native.Length(words), out readers, out shared, out padding);
            Rows = new Row[Native.Unpacked(answer)];
            for (int row = 0; row < Rows.Length; row++)
                Rows[row] = RowAt(row * WordsPerRow);
            Readers = readers;
            Shared = shared;
            Padding = padding;
        }

        /// <summary>Loads a file.</summary>
        public static Table Load(byte[] file)
        {
            return new Table(file, new byte[0]);
        }

        /// <summary>Loads a file under a list of enum types: for each the length of its name, the name and its size.</summary>
        public static Table Load(byte[] file, byte[] enums)
        {
            return new Table(file, enums);
        }

        /// <summary>The file with each seven-bit number in its shortest form.</summary>
        public static byte[] Rewrite(byte[] file, byte[] enums)
        {
            uint[] words = new uint[WordsPerRow * MostRows];
            byte[] written = new byte[Math.Max(file.Length, 1)];
            ulong answer = Native.xnb_rewrite(Native.Lent(file), Native.Length(file), Native.Lent(enums), Native.Length(enums),
                words, Native.Length(words), written, Native.Length(file));
            Array.Resize(ref written, (int)Native.Unpacked(answer));
            return written;
        }

        /// <summary>The bytes of a row; those of an object begin with its type id, those of a level with its size.</summary>
        public byte[] Part(int row)
        {
            UIntPtr first, length;
            Check(row, Native.xnb_part(file, Native.Length(file), words, Native.Length(words), (uint)row, out first, out length));
            byte[] part = new byte[(int)length];
            Array.Copy(file, (int)first, part, 0, part.Length);
            return part;
        }

        /// <summary>The text of a row of kind String.</summary>
        public string Text(int row)
        {
            UIntPtr first, length;
            Check(row, Native.xnb_text(file, Native.Length(file), words, Native.Length(words), (uint)row, out first, out length));
            return Encoding.UTF8.GetString(file, (int)first, (int)length);
        }

        /// <summary>The number of a row of kind SByte, Int16, Int32, Int64 or TimeSpan.</summary>
        public long Signed(int row)
        {
            long value;
            Check(row, Native.xnb_signed(file, Native.Length(file), words, Native.Length(words), (uint)row, out value));
            return value;
        }

        Row RowAt(int word)
        {
            return new Row
            {
                Kind = (Kind)words[word],
                First = words[word + 1],
                Length = words[word + 2],
                Children = words[word + 3],
                Parent = words[word + 4],
                Detail = words[word + 5],
                Rows = words[word + 6],
            };
        }

        static void Check(int row, uint number)
        {
            if (number != 0)
                throw new RefusedException(number, (ulong)row);
        }
    }

    /// <summary>Packs of files.</summary>
    public static class Pack
    {
        const int WordsPerFile = 4;
        const int MostFiles = 4096;

        /// <summary>The files of a pack by path, in their order.</summary>
        public static List<KeyValuePair<string, byte[]>> Read(byte[] pack)
        {
            ulong[] table = new ulong[WordsPerFile * MostFiles];
            ulong at;
            uint number = Native.xnb_pack_read(Native.Lent(pack), Native.Length(pack), table, Native.Length(table), out at);
            if (number != 0)
                throw new RefusedException(number, at);
            var files = new List<KeyValuePair<string, byte[]>>();
            for (int file = 0; file < (int)at; file++)
            {
                int word = WordsPerFile * file;
                string path = Encoding.UTF8.GetString(pack, (int)table[word], (int)table[word + 1]);
                byte[] data = new byte[table[word + 3]];
                Array.Copy(pack, (long)table[word + 2], data, 0, data.LongLength);
                files.Add(new KeyValuePair<string, byte[]>(path, data));
            }
            return files;
        }
    }

    /// <summary>The library's own answers.</summary>
    public static class Native
    {
        const string Library = "xnb";
        static readonly byte[] One = new byte[1];

        /// <summary>10,000 times the first number of the library's version, plus 100 times the second, plus the third.</summary>
        [DllImport(Library)]
        public static extern uint xnb_version();

        [DllImport(Library)]
        internal static extern ulong xnb_load_rows(byte[] file, UIntPtr fileLength, byte[] enums, UIntPtr enumsLength,
            [In, Out] uint[] words, UIntPtr wordsLength, out uint readers, out uint shared, out uint padding);

        [DllImport(Library)]
        internal static extern ulong xnb_rewrite(byte[] file, UIntPtr fileLength, byte[] enums, UIntPtr enumsLength,
            [In, Out] uint[] words, UIntPtr wordsLength, [In, Out] byte[] output, UIntPtr outputLength);

        [DllImport(Library)]
        internal static extern uint xnb_part(byte[] file, UIntPtr fileLength, uint[] words, UIntPtr wordsLength, uint row,
            out UIntPtr first, out UIntPtr length);

        [DllImport(Library)]
        internal static extern uint xnb_text(byte[] file, UIntPtr fileLength, uint[] words, UIntPtr wordsLength, uint row,
            out UIntPtr first, out UIntPtr length);

        [DllImport(Library)]
        internal static extern uint xnb_signed(byte[] file, UIntPtr fileLength, uint[] words, UIntPtr wordsLength, uint row,
            out long value);

        [DllImport(Library)]
        internal static extern uint xnb_pack_read(byte[] pack, UIntPtr packLength, [In, Out] ulong[] table, UIntPtr tableLength,
            out ulong at);

        internal static UIntPtr Length(Array array)
        {
            return (UIntPtr)(ulong)array.LongLength;
        }

        /// <summary>An array that is not empty: no pointer may be null, also with a length of 0.</summary>
        internal static byte[] Lent(byte[] array)
        {
            return array.Length == 0 ? One : array;
        }

        internal static uint Unpacked(ulong answer)
        {
            if (answer >> 32 != 0)
                throw new RefusedException((uint)(answer >> 32), (uint)answer);
            return (uint)answer;
        }
    }
}
