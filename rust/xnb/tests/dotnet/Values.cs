// Writes values of .NET by BinaryWriter and prints them: on each line the type, the bytes and the value, between tabs.
// The file make beside this one keeps what it prints.

using System;
using System.Globalization;
using System.IO;
using System.Linq;
using System.Text;

static class Values
{
    enum OfByte : byte { }
    enum OfSByte : sbyte { }
    enum OfInt16 : short { }
    enum OfUInt16 : ushort { }
    enum OfInt32 : int { }
    enum OfUInt32 : uint { }
    enum OfInt64 : long { }
    enum OfUInt64 : ulong { }

    const int Random = 16;
    static readonly CultureInfo Plain = CultureInfo.InvariantCulture;
    static ulong state = 20100916;

    // The same numbers in every run.
    static ulong Next()
    {
        state ^= state << 13;
        state ^= state >> 7;
        state ^= state << 17;
        return state;
    }

    static void Line(string type, Action<BinaryWriter> write, string shown)
    {
        var bytes = new MemoryStream();
        var writer = new BinaryWriter(bytes, new UTF8Encoding(false));
        write(writer);
        writer.Flush();
        var hex = string.Concat(bytes.ToArray().Select(it => it.ToString("X2", Plain)));
        Console.Write(type + "\t" + hex + "\t" + shown + "\n");
    }

    // The extremes, then random numbers of any length.
    static ulong[] Bits(params ulong[] extremes)
    {
        var random = Enumerable.Range(0, Random).Select(_ => Next() >> (int)(Next() % 64));
        return extremes.Concat(random).ToArray();
    }

    static void WholeNumbers()
    {
        foreach (var bits in Bits(0, 1, 0x7F, 0x80, 0xFF, 0x7FFF, 0x8000, 0xFFFF, 0x7FFFFFFF, 0x80000000, 0xFFFFFFFF,
            0x7FFFFFFFFFFFFFFF, 0x8000000000000000, 0xFFFFFFFFFFFFFFFF))
        {
            Line("Byte", it => it.Write((byte)bits), ((byte)bits).ToString(Plain));
            Line("SByte", it => it.Write((sbyte)bits), ((sbyte)bits).ToString(Plain));
            Line("Int16", it => it.Write((short)bits), ((short)bits).ToString(Plain));
            Line("UInt16", it => it.Write((ushort)bits), ((ushort)bits).ToString(Plain));
            Line("Int32", it => it.Write((int)bits), ((int)bits).ToString(Plain));
            Line("UInt32", it => it.Write((uint)bits), ((uint)bits).ToString(Plain));
            Line("Int64", it => it.Write((long)bits), ((long)bits).ToString(Plain));
            Line("UInt64", it => it.Write(bits), bits.ToString(Plain));
        }
    }

    static void Enums()
    {
        foreach (var bits in Bits(0, 1, 0xFE, 0x8001, 0x80000001, 0x8000000000000001))
        {
            Line("Enum Byte", it => it.Write((byte)(OfByte)bits), ((OfByte)bits).ToString("d"));
            Line("Enum SByte", it => it.Write((sbyte)(OfSByte)bits), ((OfSByte)bits).ToString("d"));
            Line("Enum Int16", it => it.Write((short)(OfInt16)bits), ((OfInt16)bits).ToString("d"));
            Line("Enum UInt16", it => it.Write((ushort)(OfUInt16)bits), ((OfUInt16)bits).ToString("d"));
            Line("Enum Int32", it => it.Write((int)(OfInt32)bits), ((OfInt32)bits).ToString("d"));
            Line("Enum UInt32", it => it.Write((uint)(OfUInt32)bits), ((OfUInt32)bits).ToString("d"));
            Line("Enum Int64", it => it.Write((long)(OfInt64)bits), ((OfInt64)bits).ToString("d"));
            Line("Enum UInt64", it => it.Write((ulong)(OfUInt64)bits), ((OfUInt64)bits).ToString("d"));
        }
    }

    static void FloatingNumbers()
    {
        var singles = new[] { 0f, 1f, -1.5f, 0.1f, float.MinValue, float.MaxValue, float.Epsilon, float.NaN,
            float.PositiveInfinity, float.NegativeInfinity };
        var random = Bits().Select(it => BitConverter.ToSingle(BitConverter.GetBytes((uint)it), 0));
        foreach (var number in singles.Concat(random.Where(it => !float.IsNaN(it))))
            Line("Single", it => it.Write(number), number.ToString("R", Plain));
        var doubles = new[] { 0d, 1d, -1.5d, 0.1d, double.MinValue, double.MaxValue, double.Epsilon, double.NaN,
            double.PositiveInfinity, double.NegativeInfinity };
        var wide = Bits().Select(it => BitConverter.Int64BitsToDouble((long)it));
        foreach (var number in doubles.Concat(wide.Where(it => !double.IsNaN(it))))
            Line("Double", it => it.Write(number), number.ToString("G17", Plain));
    }

    static string Units(string text)
    {
        return string.Join(" ", text.Select(it => ((int)it).ToString("X4", Plain)));
    }

    static void Texts()
    {
        Line("Boolean", it => it.Write(false), false.ToString(Plain));
        Line("Boolean", it => it.Write(true), true.ToString(Plain));
        foreach (var character in "\0a~\u007F\u0080\u00F6\u07FF\u0800\u20AC\uD7FF\uE000\uFEFF\uFFFE\uFFFF")
            Line("Char", it => it.Write(character), Units(character.ToString()));
        foreach (var text in new[] { "", "Hi", "gr\u00F6\u00DFer", "\u0E02\u0E49\u0E2D\u0E04\u0E27\u0E32\u0E21", "a\0b",
            "\u20AC\uFEFF\uFFFF", "\U0001F600", new string('x', 127), new string('y', 128), new string('\u20AC', 43) })
            Line("String", it => it.Write(text), Units(text));
    }

    static void Times()
    {
        foreach (var ticks in Bits(0, 1, 9999999, 10000000, 864000000000, 863999999999, 0x7FFFFFFFFFFFFFFF,
            0x8000000000000000, 0xFFFFFFFFFFFFFFFF, 0xFFFFFFFFFF676980))
        {
            var time = new TimeSpan((long)ticks);
            var parts = string.Format(Plain, " {0} {1} {2} {3}", time.Days, time.Hours, time.Minutes, time.Seconds);
            Line("TimeSpan", it => it.Write(time.Ticks), time.ToString("c", Plain) + parts);
        }
        var last = (ulong)DateTime.MaxValue.Ticks;
        var days = new[] { new DateTime(2000, 2, 29), new DateTime(1900, 2, 28), new DateTime(1900, 3, 1),
            new DateTime(2010, 9, 16, 12, 34, 56, 789), new DateTime(2004, 12, 31), new DateTime(4, 2, 29) };
        var moments = Bits(0, 1, last, last - 1).Select(it => it % (last + 1));
        foreach (var ticks in moments.Concat(days.Select(it => (ulong)it.Ticks)))
            foreach (var kind in new[] { DateTimeKind.Unspecified, DateTimeKind.Utc, DateTimeKind.Local })
            {
                // The form o of a local time has this machine's zone, which is no part of the value.
                var moment = new DateTime((long)ticks, kind);
                var shown = kind == DateTimeKind.Local ? DateTime.SpecifyKind(moment, DateTimeKind.Unspecified) : moment;
                var parts = string.Format(Plain, " {0} {1} {2} {3}", kind, moment.Year, moment.Month, moment.Day);
                Line("DateTime", it => it.Write((ulong)moment.Ticks | (ulong)kind << 62), shown.ToString("o", Plain) + parts);
            }
    }

    static void Decimals()
    {
        var numbers = new[] { 0m, 0.00m, 1m, 1.00m, -19.90m, decimal.MinValue, decimal.MaxValue,
            new decimal(1, 0, 0, false, 28), new decimal(0, 0, 0, true, 0), new decimal(0, 0, 0, true, 3) };
        var random = Bits().Select(it =>
            new decimal((int)it, (int)Next(), (int)(Next() >> (int)(Next() % 64)), it % 2 == 1, (byte)(Next() % 29)));
        foreach (var number in numbers.Concat(random))
            Line("Decimal", it => it.Write(number), number.ToString(Plain));
    }

    static void Main()
    {
        WholeNumbers();
        Enums();
        FloatingNumbers();
        Texts();
        Times();
        Decimals();
    }
}
