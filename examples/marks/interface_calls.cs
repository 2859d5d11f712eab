// A method of an interface that code calls keeps what answers it in each class of which objects are made, and, where it is abstract,
// in each kept class that isn't abstract (a class has to have a method for each abstract one: II.12.2). Methods of the interface that
// nothing calls go, with what answers them. So does what a class that isn't kept has, and an abstract class that is only named.
using System;

interface IShape
{
    int Area();
    int Corners();
}

class Made : IShape
{
    public int Area() { return 4; }
    public int Corners() { return 4; }
    public override string ToString() { return "made"; }
}

class Named : IShape
{
    public int Area() { return 5; }
    public int Corners() { return 5; }
    public override string ToString() { return "named"; }
}

abstract class NamedAbstract : IShape
{
    public int Area() { return 6; }
    public int Corners() { return 6; }
}

class Unnamed : IShape
{
    public int Area() { return 7; }
    public int Corners() { return 7; }
}

static class Program
{
    static void Main()
    {
        IShape shape = new Made();
        Console.WriteLine(shape.Area());
        Console.WriteLine(shape is Named);
        Console.WriteLine(shape is NamedAbstract);
    }
}
