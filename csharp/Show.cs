// Prints the rows of XNB files, or why they are refused.
//
//     mcs -out:show.exe csharp/Show.cs csharp/Xnb.cs
//     mono show.exe corpus/kinds/ok-kind-13-string.xnb
using System;
using System.IO;
using System.Text;
using Xnb;

static class Show
{
    static int Main(string[] paths)
    {
        int status = 0;
        var output = new StreamWriter(Console.OpenStandardOutput(), new UTF8Encoding(false));
        foreach (string path in paths)
        {
            try
            {
                Print(output, Table.Load(File.ReadAllBytes(path)));
            }
            catch (RefusedException refused)
            {
                output.Write("refused {0} at {1}: {2}\n", (uint)refused.Refusal, refused.Place, refused.Refusal);
                status = 1;
            }
        }
        output.Flush();
        return status;
    }

    static void Print(TextWriter output, Table table)
    {
        for (int number = 0; number < table.Rows.Length; number++)
        {
            Row row = table.Rows[number];
            string text = row.Kind == Kind.String ? " \"" + table.Text(number) + "\"" : "";
            output.Write("row {0}, {1} bytes at {2}: {3}{4}\n", number, row.Length, row.First, row.Kind, text);
        }
    }
}
