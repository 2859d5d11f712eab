// Code that only looks at types keeps what it names, as other code does: a type that `typeof` names without its members, and the
// members that it calls. A method that searches for members may be there as long as nothing calls it.
using System;

class Shape
{
    public virtual string Say() { return GetType().Name; }
    public static int Unused;
}

class Round : Shape
{
    public void Roll() { Console.WriteLine("rolls"); }
}

class Named
{
    public int Field;
    public void Method() { Console.WriteLine("method"); }
}

static class Program
{
    static void Main()
    {
        Shape shape = new Round();
        Console.WriteLine(shape.Say());
        Console.WriteLine(typeof(Named).Name);
        Console.WriteLine(typeof(Shape) == shape.GetType());
        Console.WriteLine(typeof(Shape).IsInstanceOfType(shape));
    }

    static object Search() { return typeof(Round).GetMethod("Roll"); }
}
