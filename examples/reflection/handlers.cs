// What a local has at any place in a try block, its beginning too, it may have in the handlers of the block. What it had before it got
// another value in front of the block doesn't come there, nor what it gets behind the block.
using System;

class Overwritten { public static void Run() { } }
class Before { public static void Run() { Console.WriteLine("before"); } }
class First { public static void Run() { Console.WriteLine("first"); } }
class Second { public static void Run() { Console.WriteLine("second"); } public static void Other() { } }
class Behind { public static void Run() { } }
class InFinally { public static void Run() { Console.WriteLine("finally"); } }

static class Program
{
    static void Main()
    {
        Type type = typeof(Overwritten);
        type = typeof(Before);
        try
        {
            type = typeof(First);
            Console.WriteLine("in the block");
            type = typeof(Second);
            throw new Exception();
        }
        catch (Exception)
        {
            type.GetMethod("Run").Invoke(null, null);
        }
        type = typeof(Behind);
        Console.WriteLine(type.Name);
        Finally();
    }

    static void Finally()
    {
        Type type = null;
        try
        {
            type = typeof(InFinally);
        }
        finally
        {
            type.GetMethod("Run").Invoke(null, null);
        }
    }
}
