// examples/types.exe is this program, as mcs compiles it: mcs -optimize+ types.cs
// It asks types for their names and for what can stand for what, and finds no member through them.
using System;

namespace Shapes
{
    interface IShape { int Sides(); }

    abstract class Shape : IShape
    {
        public abstract int Sides();

        public override string ToString() { return GetType().Name; }

        // Nothing calls this.
        public virtual int Corners() { return Sides(); }
    }

    class Square : Shape
    {
        public override int Sides() { return 4; }

        public class Corner { }
    }

    sealed class Cube : Square
    {
        public override int Sides() { return 12; }
    }

    struct Point
    {
        public int X;
    }

    class Pile<T>
    {
        public Type Kind() { return typeof(T); }

        public struct Row { }
    }
}

enum Color { Red, Green }

// Nothing names this class.
class Unused { }

static class Program
{
    static void Show(Type type)
    {
        Console.Write(type.Name);
        Console.Write("|");
        Console.Write(type.Namespace == null ? "none" : type.Namespace);
        Console.Write("|");
        Console.Write(type.ToString());
        Console.Write("|");
        Console.Write(type.DeclaringType == null ? "top" : type.DeclaringType.Name);
        Console.Write("|");
        Console.Write(type.IsValueType);
        Console.Write("|");
        Console.Write(type.IsInterface);
        Console.Write("|");
        Console.WriteLine(type.IsArray);
    }

    static void Main()
    {
        Show(typeof(Shapes.IShape));
        Show(typeof(Shapes.Square));
        Show(typeof(Shapes.Square.Corner));
        Show(typeof(Shapes.Point));
        Show(typeof(Shapes.Point[]));
        Show(typeof(Color));
        Show(typeof(int));
        Show(typeof(string));
        Show(typeof(object[]));
        Show(typeof(Enum));
        Show(typeof(ValueType));
        Show(typeof(void));
        Show(typeof(Shapes.Pile<int>));
        Show(typeof(Shapes.Pile<int>.Row));
        Show(new Shapes.Pile<Color>().Kind());
        Show(typeof(Type));

        Console.WriteLine(typeof(Shapes.Square.Corner).FullName);
        Console.WriteLine(typeof(int[]).FullName);
        Console.WriteLine(typeof(Shapes.Pile<>).Name);

        object[] things = { new Shapes.Cube(), new Shapes.Square(), 7, "text", Color.Green, new int[2], new Shapes.Point() };
        foreach (object thing in things)
        {
            Type type = thing.GetType();
            Console.Write(type);
            Console.Write(type == typeof(Shapes.Square));
            Console.Write(type != typeof(int));
            Console.Write(type.Equals((object)typeof(string)));
            Console.Write(typeof(Shapes.Square).IsInstanceOfType(thing));
            Console.Write(typeof(Shapes.IShape).IsAssignableFrom(type));
            Console.Write(typeof(ValueType).IsAssignableFrom(type));
            Console.WriteLine(object.ReferenceEquals(type, thing.GetType()));
        }
        Console.WriteLine(things[0]);
        Console.WriteLine(typeof(Shapes.Square).IsInstanceOfType(null));
        Type none = null;
        Console.WriteLine(none == typeof(int));
        Console.WriteLine(none == null);
        Console.WriteLine(none != typeof(int));
        try
        {
            object nothing = null;
            Console.WriteLine(nothing.GetType());
        }
        catch (NullReferenceException)
        {
            Console.WriteLine("null has no type");
        }
    }
}
