// A value type that is kept counts as one of which objects are made, since a box may come from a field or an array: it answers the
// interface calls and the core library's virtual calls, though no code makes one. A class in the same place answers neither.
using System;

interface INumber { int Number(); }
interface IUnasked { int Unasked(); }

struct Structure : INumber, IUnasked
{
    public int Number() { return 1; }
    public int Unasked() { return 1; }
    public override string ToString() { return "structure"; }
    public static bool operator ==(Structure a, Structure b) { return true; }
    public static bool operator !=(Structure a, Structure b) { return false; }
    public override bool Equals(object other) { return true; }
    public override int GetHashCode() { return 1; }
}

class Class
{
    public override string ToString() { return "class"; }
}

class Asked : INumber
{
    public int Number() { return 3; }
}

class Holder
{
    public Structure[] structures;
    public Class[] classes;
}

static class Program
{
    static void Main()
    {
        Holder holder = new Holder();
        Console.WriteLine(holder.structures == null);
        Console.WriteLine(holder.classes == null);
        INumber number = new Asked();
        Console.WriteLine(number.Number());
    }
}
