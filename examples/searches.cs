// examples/searches.exe is this program, as mcs compiles it: mcs -optimize+ searches.cs
// It finds types by their names, in itself, in examples/stock.dll and in the core library.
using System;

namespace Shapes
{
    class Square
    {
        public class Corner
        {
            public struct Angle { }
        }
    }
}

// The text of no instruction names this class whole.
class Hidden { }

static class Program
{
    static void Show(Type type)
    {
        if (type == null) { Console.WriteLine("none"); return; }
        Console.Write(type);
        Console.Write("|");
        Console.Write(type.Name);
        Console.Write("|");
        Console.Write(type.IsValueType);
        Console.Write("|");
        Console.WriteLine(type.DeclaringType == null ? "top" : type.DeclaringType.Name);
    }

    static void Find(string name)
    {
        Show(Type.GetType(name));
        Show(Type.GetType(name, false));
        try
        {
            Show(Type.GetType(name, true));
        }
        catch (TypeLoadException)
        {
            Console.WriteLine("no such type");
        }
    }

    static void Main()
    {
        Find("Program");
        Find("Hid" + Console.ReadLine());
        Find("Shapes.Square");
        Find("Shapes.Square+Corner");
        Find("Shapes.Square+Corner+Angle");
        Find("Shapes.Square, searches");
        Find("Part, stock");
        Find("Part,stock, Version=0.0.0.0, Culture=neutral, PublicKeyToken=null");
        Find("System.String");
        Find("System.Int32");
        Find("System.Int32, mscorlib");
        // No type has these names: one of a library without its name, a nested one without the type around it, parts of names.
        Find("Part");
        Find("Corner");
        Find("Square");
        Find("Shapes.Square+");
        Find("shapes.square");
        Find("Part, shelves");
        Find("Shapes.Square, stock");
        Find("System.String, searches");
        Find("\ud83d\ude00");
        Find("");

        Console.WriteLine(Type.GetType("Shapes.Square") == typeof(Shapes.Square));
        Console.WriteLine(object.ReferenceEquals(Type.GetType("System.Int32"), 1.GetType()));
        try
        {
            Type.GetType(null);
        }
        catch (ArgumentNullException)
        {
            Console.WriteLine("no name");
        }
        try
        {
            Type.GetType(null, true);
        }
        catch (ArgumentNullException)
        {
            Console.WriteLine("no name");
        }
    }
}
