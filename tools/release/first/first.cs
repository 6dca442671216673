// The first path in C#: a level is opened, a crate put across its room, and the way round it asked for.
//
//     mcs -out:first.exe first/first.cs hosts/csharp/Navd.cs
//     LD_LIBRARY_PATH=lib mono first.exe examples/detour.nav       cost 180, 5 links, 2 turns: (144, 64) (144, 96)
using System;
using Navd;

internal static class First
{
    static void Must(Status status)
    {
        if (status != Status.Ok) throw new InvalidOperationException("a call ended with " + status);
    }

    static void Main(string[] words)
    {
        using (var level = new Level())
        {
            Fault fault;
            uint number;
            var path = new Path();
            Must(level.Open(System.IO.File.ReadAllBytes(words[0]), out fault));
            Must(level.AddBlock(new Block { X0 = 1, X1 = 8, Y0 = 0, Y1 = 100, Z0 = 4, Z1 = 5 }, 0, out number));
            Must(level.Settle(out number));
            var from = new Point { X = 40, Z = 40 };
            var to = new Point { X = 40, Z = 120 };
            Must(level.FindPath(new Way { From = from, FromY = 10, To = to, ToY = 10 }, path));
            Console.Write("cost {0}, {1} links, {2} turns:", path.Cost, path.Links.Count, path.Turns.Count);
            for (int i = 0; i < path.Turns.Count; i++) Console.Write(" ({0}, {1})", path.Turns[i].At.X, path.Turns[i].At.Z);
            Console.WriteLine();
        }
    }
}
