// examples/accounts.dll is this library as mcs compiles it: mcs -optimize+ -target:library -out:accounts.dll accounts.cs
using System;

public interface IPriced
{
    int Price { get; }
}

public class ClosedException : Exception
{
    public ClosedException(string message) : base(message) { }
}

public abstract class Item : IPriced
{
    readonly string name;

    protected Item(string name) { this.name = name; }

    public string Name { get { return name; } }

    public abstract int Price { get; }

    public virtual string Label() { return string.Concat(name, " at ", Price.ToString()); }

    public override string ToString() { return string.Concat("item ", name); }
}

public struct Line
{
    public int Count;
    public int Price;

    public Line(int count, int price) { Count = count; Price = price; }

    public int Sum() { return checked(Count * Price); }
}

public class Box<T> where T : class
{
    T[] items = new T[2];
    int count;

    public static int Made;

    public Box() { Made++; }

    public int Count { get { return count; } }

    public void Add(T item)
    {
        if (count == 4) throw new ClosedException("the box is full");
        if (count == items.Length)
        {
            T[] more = new T[2 * count];
            for (int i = 0; i < count; i++) more[i] = items[i];
            items = more;
        }
        items[count] = item;
        count++;
    }

    public T this[int at] { get { return items[at]; } }
}

public static class Totals
{
    static readonly int[] steps;

    static Totals()
    {
        Console.WriteLine("totals begin");
        steps = new int[] { 4, 5, 6 };
    }

    public static int Steps()
    {
        int sum = 0;
        for (int i = 0; i < steps.Length; i++) sum += steps[i];
        return sum;
    }

    public static int Of(Box<Item> box)
    {
        int sum = 0;
        for (int i = 0; i < box.Count; i++)
        {
            Line line = new Line(2, box[i].Price);
            sum = checked(sum + line.Sum());
        }
        return sum;
    }

    // No run passes the call: Math.Max isn't among the members of the core library that are run.
    public static int AtLeastOne(int of) { return Math.Max(of, 1); }
}
