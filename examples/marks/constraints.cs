// A kept type or method keeps the constraints of its type parameters (II.22.21), and with them the interface rows of kept types for
// these interfaces. Those of a method that goes go too.
using System;

interface INamed { string Name(); }
interface ISized { int Size(); }
interface IUnneeded { }
class Base { }
class Derived : Base, INamed, ISized, IUnneeded
{
    public string Name() { return "derived"; }
    public int Size() { return 1; }
}
class UnneededBase { }

class Holder<T> where T : INamed
{
    public static int Count;
}

static class Program
{
    static void Main()
    {
        Holder<Derived>.Count = 2;
        Console.WriteLine(Holder<Derived>.Count);
        Show<Derived>();
    }

    static void Show<T>() where T : Base, ISized { Console.WriteLine("shown"); }

    static void Unused<T>() where T : UnneededBase { }
}
