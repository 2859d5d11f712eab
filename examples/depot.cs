// examples/depot.exe is this program with examples/stock.dll, as mcs compiles it: mcs -optimize+ -r:stock.dll -out:depot.exe depot.cs
using System;

class Screw : Part
{
    public Screw() : base("screw") { }

    public override int Size { get { return 1; } }
}

class Plate : Part
{
    readonly int edge;

    public Plate(int edge) : base("plate") { this.edge = edge; }

    public override int Size { get { return edge * edge; } }

    public override string Label() { return Texts.Mark(base.Label()); }
}

static class Texts
{
    internal static string Mark(string text) { return string.Concat("+ ", text); }
}

static class Depot
{
    // Nothing calls it.
    static void Unused() { Console.WriteLine("unused"); }

    static int Main()
    {
        Shelf<Part> shelf = new Shelf<Part>();
        shelf.Add(new Screw());
        shelf.Add(new Plate(3));
        shelf.Add(new Plate(Sizes.All[1]));
        for (int i = 0; i < shelf.Count; i++) Console.WriteLine(shelf[i].Label());
        IMeasured first = shelf[0];
        Console.WriteLine(first.Size);
        Console.WriteLine(shelf.Sum());
        return Shelf<Part>.Made;
    }
}
