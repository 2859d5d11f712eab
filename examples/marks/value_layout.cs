// A value type that is named keeps all its instance fields, and the types of these: its size and layout are theirs (II.22.8). Its
// static fields and its methods stay only where code names them. An enum keeps all its fields. A class keeps only those that code
// names.
using System;

class Held { public int Unused; }
class Unheld { }

struct Inner { public Held Reference; }

struct Pair
{
    public Inner First;
    public int Second;
    public static int Count;

    public void Unused() { Count = Second; }
}

enum Color { Red, Green }

class Plain
{
    public int Used;
    public Unheld Unused;
}

static class Program
{
    static void Main()
    {
        Pair pair = new Pair();
        pair.Second = 4;
        Console.WriteLine(pair.Second);
        Console.WriteLine(Number(Color.Green));
        Plain plain = new Plain();
        plain.Used = 5;
        Console.WriteLine(plain.Used);
    }

    static int Number(Color color) { return (int)color; }
}
