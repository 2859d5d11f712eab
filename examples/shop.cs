// examples/shop.exe is this program with examples/accounts.dll, as mcs compiles it:
// mcs -optimize+ -r:accounts.dll -out:shop.exe shop.cs
using System;

class Book : Item
{
    readonly int price;

    public Book(string name, int price) : base(name) { this.price = price; }

    public override int Price { get { return price; } }
}

class Gift : Item
{
    public Gift(string name) : base(name) { }

    public override int Price { get { return 0; } }

    public override string Label() { return string.Concat("free: ", base.Label()); }

    public override string ToString() { return "gift"; }
}

static class Shop
{
    static int Steps()
    {
        int[] steps = new int[] { 1, 2, 3 };
        int sum = 0;
        for (int i = 0; i < steps.Length; i++) sum += steps[i];
        return sum;
    }

    static void Main()
    {
        Box<Item> box = new Box<Item>();
        Box<string> names = new Box<string>();
        box.Add(new Book("III", 30));
        box.Add(new Gift("map"));
        box.Add(new Book("II", 20));
        for (int i = 0; i < box.Count; i++)
        {
            Console.WriteLine(box[i].Label());
            Console.WriteLine((object)box[i]);
            names.Add(box[i].Name);
        }
        Console.WriteLine(Steps());
        Console.WriteLine(Totals.Steps());
        Console.WriteLine(Totals.Of(box));
        Console.WriteLine(Box<Item>.Made + Box<string>.Made);
        IPriced priced = box[0];
        Console.WriteLine(priced.Price);
        try
        {
            names.Add("more");
            names.Add("too many");
        }
        catch (ClosedException e)
        {
            Console.WriteLine(e.Message);
        }
        string line = Console.ReadLine();
        if (line == "most") Console.WriteLine(Totals.AtLeastOne(9));
        box.Add(new Book("all", 2000000000));
        Console.WriteLine(Totals.Of(box));
    }
}
