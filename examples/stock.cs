// examples/stock.dll is this library as mcs compiles it: mcs -optimize+ -target:library -out:stock.dll stock.cs
using System;

public interface IMeasured
{
    int Size { get; }
}

public abstract class Part : IMeasured
{
    readonly string name;

    protected Part(string name) { this.name = name; }

    public string Name { get { return name; } }

    public abstract int Size { get; }

    public virtual string Label() { return Texts.Join(name, Size.ToString()); }

    // Nothing calls it.
    public virtual string Twice() { return string.Concat(name, name); }
}

public class Shelf<T> where T : class, IMeasured
{
    T[] items = new T[1];
    int count;

    public static int Made;

    public Shelf() { Made++; }

    public int Count { get { return count; } }

    public T this[int at] { get { return items[at]; } }

    public void Add(T item)
    {
        if (count == items.Length)
        {
            T[] more = new T[2 * count];
            for (int i = 0; i < count; i++) more[i] = items[i];
            items = more;
        }
        items[count] = item;
        count++;
    }

    public int Sum()
    {
        int sum = 0;
        for (int i = 0; i < count; i++) sum += items[i].Size;
        return sum;
    }

    // Nothing calls it.
    public bool Holds(T item)
    {
        for (int i = 0; i < count; i++) if (items[i] == item) return true;
        return false;
    }
}

// The program has an internal class of this name too.
static class Texts
{
    internal static string Join(string left, string right) { return string.Concat(left, " of ", right); }
}

public static class Sizes
{
    public static readonly int[] All = new int[] { 4, 5, 6 };

    static Sizes() { Console.WriteLine("sizes begin"); }
}

// Nothing names it.
public class Crate : Part
{
    public Crate() : base("crate") { }

    public override int Size { get { return 100; } }
}
