// A search asks only of the types that come to it: of a type that goes into another variable, or that the variable had before or gets
// afterwards, the type alone is kept. A search asks for one kind of member.
using System;

class Other { public static void Run() { } public int Field; }
class Earlier { public static void Run() { } }
class Searched { public static void Run() { Console.WriteLine("searched"); } public static int Field; public Searched() { } }
class Later { public static void Run() { } }

static class Program
{
    static void Main()
    {
        Type other = typeof(Other);
        Type type = typeof(Earlier);
        Console.WriteLine(type.Name);
        type = typeof(Searched);
        type.GetMethod("Run").Invoke(null, null);
        type = typeof(Later);
        Console.WriteLine(type.Name);
        Console.WriteLine(other.Name);
    }
}
