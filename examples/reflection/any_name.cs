// A search for a method whose name may be any text keeps each public method of the type and its bases, static ones and accessors too,
// with what their code needs and the properties of the accessors. Constructors, fields, other accessors and methods that aren't
// public go.
using System;

class Base
{
    public void OfBase() { Console.WriteLine("of base"); }
    public static void StaticOfBase() { Console.WriteLine("static of base"); }
    protected void FamilyOfBase() { }
}

class Searched : Base
{
    public static int Field;
    public static void A() { Console.WriteLine("a"); }
    public static void B() { Help(); }
    public int Number { get { return 1; } private set { } }
    static void Help() { Console.WriteLine("helped"); }
    static void Private() { }
    internal static void Internal() { }
}

static class Program
{
    static void Main()
    {
        string name = Console.ReadLine() ?? "A";
        typeof(Searched).GetMethod(name).Invoke(null, null);
    }
}
