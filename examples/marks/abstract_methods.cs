// An abstract method that code calls is answered in each kept class that isn't abstract, also where no object of it is made: without
// the answer the class couldn't be loaded (II.12.2). One that isn't abstract isn't, and an abstract class needs no answer.
using System;

abstract class Shape
{
    public abstract int Area();
    public virtual int Corners() { return 0; }
    public abstract int Edges();
}

abstract class Partial : Shape
{
    public override int Area() { return 1; }
}

class Square : Shape
{
    public override int Area() { return 2; }
    public override int Corners() { return 4; }
    public override int Edges() { return 4; }
}

class Plate : Square { }

static class Program
{
    static void Main()
    {
        object text = "text";
        Console.WriteLine(text is Partial);
        Console.WriteLine(text is Plate);
        Shape shape = text as Shape;
        if (shape != null) Console.WriteLine(shape.Area() + shape.Corners());
    }
}
