// examples/plugins.exe is this program with examples/host.dll, as mcs compiles it: mcs -optimize+ -r:host.dll -out:plugins.exe plugins.cs
// It makes objects by their types: plugins that it finds by their names, and what each rule of Activator.CreateInstance says.
using System;
using System.Reflection;

namespace Plugins
{
    class Hello : IPlugin
    {
        public string Run() { return "hello"; }
    }

    class Counter : Named
    {
        static int made = Start();
        static int Start() { Console.WriteLine("counting begins"); return 0; }
        int number;
        public Counter() { made = made + 1; number = made; name = "counter"; }
        public override string Run() { return name + " " + number.ToString(); }
    }

    class Failing : IPlugin
    {
        public Failing() { throw new InvalidOperationException("not today"); }
        public string Run() { return "never"; }
    }

    class Nested : IPlugin
    {
        IPlugin inner;
        public Nested() { inner = (IPlugin)Activator.CreateInstance(Type.GetType("Plugins.Failing")); }
        public string Run() { return inner.Run(); }
    }

    class Box<T> : Named where T : new()
    {
        T held = new T();
        public Box() { name = "box of " + held.ToString(); }
        public override string Run() { return name; }
    }
}

struct Point
{
    public int X, Y;
    public override string ToString() { return X.ToString() + "," + Y.ToString(); }
}

struct Pair<T>
{
    public T First, Second;
    public override string ToString() { return First == null ? "empty pair" : "pair"; }
}

enum Color { Red, Green }

class Empty { }

class Secret
{
    Secret() { }
}

class Needy
{
    public Needy(int n) { }
}

class Derived : Needy
{
    public Derived() : base(1) { }
}

class Wrong : Exception
{
    public Wrong() : base("wrong") { }
}

class Loud
{
    public Loud() { throw new Wrong(); }
}

static class Program
{
    static void Load(string name)
    {
        Type type = Type.GetType(name);
        if (type == null) { Console.WriteLine("no plugin"); return; }
        try
        {
            Console.WriteLine(((IPlugin)Activator.CreateInstance(type)).Run());
        }
        catch (TargetInvocationException e)
        {
            Exception inner = e.InnerException;
            while (inner is TargetInvocationException)
            {
                Console.Write("in it, ");
                inner = inner.InnerException;
            }
            Console.WriteLine(inner.Message);
        }
        catch (MissingMethodException)
        {
            Console.WriteLine("can't be made");
        }
    }

    static void Make(Type type)
    {
        try
        {
            object made = Activator.CreateInstance(type);
            Console.Write(made.GetType() == type);
            Console.Write("|");
            Console.WriteLine(made);
        }
        catch (ArgumentNullException) { Console.WriteLine("no type"); }
        catch (ArgumentException) { Console.WriteLine("open"); }
        catch (MissingMethodException) { Console.WriteLine("no constructor"); }
        catch (TargetInvocationException e) { Console.WriteLine(e.InnerException.Message); }
    }

    static T Own<T>() where T : new()
    {
        return new T();
    }

    static void Main()
    {
        Load("Plugins.Hello");
        Load("Plugins.Counter");
        Load("Plugins.Counter");
        Load("Plugins.Failing");
        Load("Plugins.Nested");
        Load("Plugins." + Console.ReadLine());
        Load("Named, host");
        Load("IPlugin, host");
        Console.WriteLine(((IPlugin)Activator.CreateInstance(typeof(Plugins.Box<Empty>))).Run());
        Console.WriteLine(((IPlugin)Activator.CreateInstance(typeof(Plugins.Box<Point>))).Run());

        Make(typeof(Point));
        Make(typeof(Pair<string>));
        Make(typeof(int));
        Make(typeof(bool));
        Make(typeof(Empty));
        Make(typeof(Derived));
        Make(typeof(object));
        Make(typeof(Loud));
        Make(null);
        Make(typeof(Pair<>));
        Make(typeof(Plugins.Box<>));
        Make(typeof(Secret));
        Make(typeof(Needy));
        Make(typeof(string));
        Make(typeof(int[]));
        Make(typeof(IPlugin));
        Make(typeof(Named));
        Make(typeof(Program));

        Exception wrong = (Exception)Activator.CreateInstance(typeof(Wrong));
        Console.WriteLine(wrong.Message);
        Console.WriteLine(((Color)Activator.CreateInstance(typeof(Color))) == Color.Red);
        Console.WriteLine(Own<Point>());
        Console.WriteLine(Own<int>() + 1);
        Console.WriteLine(Own<Empty>());
        Point p = Own<Point>();
        p.X = 3;
        Console.WriteLine(p);
        Console.WriteLine(Own<Point>());
        try
        {
            Own<Loud>();
        }
        catch (TargetInvocationException e)
        {
            Console.WriteLine(e.InnerException.Message);
        }
        // Nobody catches this one.
        Activator.CreateInstance(typeof(Loud));
    }
}
