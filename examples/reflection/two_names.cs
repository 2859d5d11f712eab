// A search for a method whose name is one of two texts, by a condition, keeps the methods of these two names. Another method of the
// type goes, and so does a method of one of the names in a type that nothing searches. Null among the names adds nothing.
using System;

class Searched
{
    public static void A() { Console.WriteLine("a"); }
    public static void B() { Console.WriteLine("b"); }
    public static void C() { Console.WriteLine("c"); }
}

class Later
{
    public static void A() { Console.WriteLine("later a"); }
    public static void B() { Console.WriteLine("later b"); }
}

class Other
{
    public static void A() { Console.WriteLine("other a"); }
}

static class Program
{
    static void Main()
    {
        string name = Console.Read() == 65 ? "A" : "B";
        typeof(Searched).GetMethod(name).Invoke(null, null);
        string later = null;
        if (name == "B") later = "B";
        if (later != null) typeof(Later).GetMethod(later).Invoke(null, null);
        Console.WriteLine(typeof(Other).Name);
    }
}
