// An abstract method that overrides another is answered in each kept class below it that isn't abstract, also where no object of it is
// made: without the answer the class couldn't be loaded (II.10.1.4). A class beside it isn't asked, nor one that is abstract itself.
using System;

class Shape
{
    public virtual int Area() { return 0; }
    public virtual int Corners() { return 0; }
}

abstract class Solid : Shape
{
    public abstract override int Area();
    public override int Corners() { return 1; }
    public abstract override string ToString();
}

class Cube : Solid
{
    public override int Area() { return 6; }
    public override int Corners() { return 8; }
    public override string ToString() { return "cube"; }
}

class Ball : Solid
{
    public static int Count;
    public override int Area() { return 3; }
    public override int Corners() { return 2; }
    public override string ToString() { return "ball"; }
}

abstract class Half : Solid
{
    public override int Area() { return 2; }
}

class Dome : Half
{
    public static int Count;
    public override string ToString() { return "dome"; }
}

abstract class Open : Solid
{
    public override int Area() { return 5; }
}

class Disc : Shape
{
    public override int Area() { return 1; }
    public override string ToString() { return "disc"; }
}

static class Program
{
    static void Main()
    {
        Shape shape = new Cube();
        Console.WriteLine(shape.Area() + shape.Corners());
        Ball.Count = 2;
        Dome.Count = 3;
        Console.WriteLine(Ball.Count + Dome.Count);
        Console.WriteLine(shape is Open);
        Console.WriteLine(shape is Disc);
    }
}
