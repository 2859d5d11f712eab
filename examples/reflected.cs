// examples/reflected.exe is this program, as mcs compiles it: mcs -optimize+ reflected.cs
// It finds methods, fields and properties of types, by their names and all of them.
using System;
using System.Reflection;

public class Animal
{
    public int Legs = 4;
    public static string Kingdom = "animals";
    private int secret = 1;
    public virtual string Speak() { return "..."; }
    public virtual void Move(int far) { secret += far; }
    public static int Count() { return 0; }
    public int Weigh() { return secret; }
    private void Hide() { Weigh(); }
    public virtual string Name { get { return "animal"; } }
    public int Age { get; set; }
    public static Animal First { get { return null; } }
    private int Inner { get { Hide(); return secret; } }
    public int Peek() { return Inner; }
}

public class Dog : Animal
{
    public string Owner = "nobody";
    public override string Speak() { return "woof"; }
    public override string Name { get { return "dog"; } }
    public new long Legs = 3;
    public Dog Parent() { return this; }
    public void Fetch(string what) { Owner = what; }
    public void Fetch(int times) { Legs = times; }
    public Animal[] Friends() { return null; }
}

public interface IShape
{
    int Area();
}

public struct Square : IShape
{
    public int Side;
    public int Area() { return Side * Side; }
}

public class Box<T>
{
    public T Content;
    public T[] Many;
    public T Get() { return Content; }
    public Box<T> Self() { return this; }
    public int Size { get { return 1; } }
    public T Value { get { return Content; } set { Content = value; } }
}

public class IntBox : Box<int>
{
    public int Twice() { return Content * 2; }
}

public static class Program
{
    static void Print(string label, string text)
    {
        Console.WriteLine(string.Concat(label, ": ", text));
    }

    static string NameOf(MemberInfo m)
    {
        return (object)m == null ? "none" : m.Name;
    }

    static string TypeName(Type t)
    {
        return t == null ? "none" : t.ToString();
    }

    static void Method(Type t, string name)
    {
        Console.Write(string.Concat(t.Name, ".", name, " "));
        try
        {
            MethodInfo m = t.GetMethod(name);
            if (m == null)
            {
                Console.WriteLine("none");
                return;
            }
            Console.Write(string.Concat(TypeName(m.DeclaringType), " ", TypeName(m.ReturnType), " "));
            Console.WriteLine(m.IsStatic);
        }
        catch (AmbiguousMatchException)
        {
            Console.WriteLine("ambiguous");
        }
    }

    static void Field(Type t, string name)
    {
        FieldInfo f = t.GetField(name);
        if (f == null)
        {
            Print(name, "none");
            return;
        }
        Print(f.Name, string.Concat(TypeName(f.DeclaringType), " ", TypeName(f.FieldType)));
    }

    static void Property(Type t, string name)
    {
        PropertyInfo p = t.GetProperty(name);
        if (p == null)
        {
            Print(name, "none");
            return;
        }
        Print(p.Name, string.Concat(TypeName(p.DeclaringType), " ", TypeName(p.PropertyType)));
    }

    // All members of a kind that the program's own types have.
    static void Methods(Type t)
    {
        Print("methods", t.ToString());
        foreach (MethodInfo m in t.GetMethods())
        {
            if (m.DeclaringType != typeof(object) && m.DeclaringType != typeof(ValueType))
            {
                Print(TypeName(m.DeclaringType), m.Name);
            }
        }
    }

    static void Fields(Type t)
    {
        Print("fields", t.ToString());
        foreach (FieldInfo f in t.GetFields())
        {
            Print(TypeName(f.DeclaringType), f.Name);
        }
    }

    static void Properties(Type t)
    {
        Print("properties", t.ToString());
        foreach (PropertyInfo p in t.GetProperties())
        {
            Print(TypeName(p.DeclaringType), p.Name);
        }
    }

    static void Same()
    {
        MethodInfo speak = typeof(Dog).GetMethod("Speak");
        MethodInfo none = null;
        Console.WriteLine(speak == typeof(Dog).GetMethod("Speak"));
        Console.WriteLine(speak == typeof(Animal).GetMethod("Speak"));
        Console.WriteLine(speak != typeof(Animal).GetMethod("Speak"));
        Console.WriteLine(speak == none);
        Console.WriteLine(none == null);
        Console.WriteLine(speak != null);
        Console.WriteLine(typeof(Dog).GetField("Owner") == typeof(Dog).GetField("Owner"));
        Console.WriteLine(typeof(Dog).GetProperty("Name") != typeof(Animal).GetProperty("Name"));
        Console.WriteLine(typeof(Box<int>).GetMethod("Get") == typeof(Box<string>).GetMethod("Get"));
        Console.WriteLine(typeof(Box<int>).GetMethod("Get") == typeof(Box<int>).GetMethod("Get"));
    }

    static void Faults()
    {
        try
        {
            typeof(Dog).GetMethod(null);
            Console.WriteLine("no fault");
        }
        catch (Exception)
        {
            Console.WriteLine("a null name");
        }
        try
        {
            Type t = null;
            t.GetMethods();
            Console.WriteLine("no fault");
        }
        catch (NullReferenceException)
        {
            Console.WriteLine("a null type");
        }
    }

    public static int Main()
    {
        Method(typeof(Dog), "Speak");
        Method(typeof(Dog), "Move");
        Method(typeof(Dog), "Count");
        Method(typeof(Animal), "Count");
        Method(typeof(Dog), "Weigh");
        Method(typeof(Dog), "Hide");
        Method(typeof(Dog), "Fetch");
        Method(typeof(Dog), "Parent");
        Method(typeof(Dog), "Friends");
        Method(typeof(Dog), ".ctor");
        Method(typeof(Dog), "get_Name");
        Method(typeof(IShape), "Area");
        Method(typeof(Square), "Area");
        Method(typeof(IntBox), "Get");
        Method(typeof(IntBox), "Self");
        Method(typeof(IntBox), "Twice");
        Method(typeof(Box<string>), "Get");
        Method(typeof(Dog[]), "get_Length");

        Field(typeof(Dog), "Owner");
        Field(typeof(Dog), "Kingdom");
        Field(typeof(Animal), "Kingdom");
        Field(typeof(Animal), "secret");
        Field(typeof(Square), "Side");
        Field(typeof(IntBox), "Content");
        Field(typeof(Box<string>), "Many");

        Property(typeof(Dog), "Name");
        Property(typeof(Dog), "Age");
        Property(typeof(Dog), "First");
        Property(typeof(Animal), "First");
        Property(typeof(Animal), "Inner");
        Property(typeof(IntBox), "Value");
        Property(typeof(Box<string>), "Value");

        Methods(typeof(Animal));
        Methods(typeof(Dog));
        Methods(typeof(IShape));
        Methods(typeof(Square));
        Methods(typeof(IntBox));
        Fields(typeof(Animal));
        Fields(typeof(Dog));
        Fields(typeof(IntBox));
        Properties(typeof(Animal));
        Properties(typeof(Dog));
        Properties(typeof(IntBox));

        Print("open", NameOf(typeof(Box<>).GetMethod("Get")));
        Print("open owner", NameOf(typeof(Box<>).GetMethod("Get").DeclaringType));
        Print("open size", TypeName(typeof(Box<>).GetProperty("Size").PropertyType));
        Same();
        Faults();
        return typeof(Dog).GetFields().Length;
    }
}
