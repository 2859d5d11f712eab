// examples/clash.exe is this program with examples/stock.dll, as mcs compiles it: mcs -optimize+ -r:stock.dll -out:clash.exe clash.cs
using System;

// The library has a public class of this name too, which `Shelf` needs.
public interface IMeasured
{
    int Area { get; }
}

class Tile : Part, IMeasured
{
    public Tile() : base("tile") { }

    public override int Size { get { return 2; } }

    public int Area { get { return 4; } }
}

static class Clash
{
    static void Main()
    {
        IMeasured tile = new Tile();
        Shelf<Part> shelf = new Shelf<Part>();
        shelf.Add(new Tile());
        Console.WriteLine(tile.Area);
        Console.WriteLine(shelf.Sum());
    }
}
