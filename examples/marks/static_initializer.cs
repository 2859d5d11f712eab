// A kept method, also an instance or abstract one, and a kept static field keep the initializer of their type (II.10.5.3): it may run
// where they are reached. A type that code only names, or of which only instance fields are named, keeps none.
using System;

class OfStaticMethod
{
    static OfStaticMethod() { Console.WriteLine("OfStaticMethod begins"); }
    public static void Call() { Console.WriteLine("called"); }
}

class OfStaticField
{
    public static int Number, Unused;
    static OfStaticField() { Number = 1; Unused = 2; Console.WriteLine("OfStaticField begins"); }
}

class OfInstanceMethod
{
    static OfInstanceMethod() { Console.WriteLine("OfInstanceMethod begins"); }
    public void Call() { Console.WriteLine("called"); }
}

abstract class OfAbstractMethod
{
    static OfAbstractMethod() { Console.WriteLine("OfAbstractMethod begins"); }
    public abstract void Call();
}

struct OfInstanceField
{
    public int Number;
    static OfInstanceField() { Console.WriteLine("OfInstanceField begins"); }
}

class OfNamedType
{
    static OfNamedType() { Console.WriteLine("OfNamedType begins"); }
}

static class Program
{
    static void Main()
    {
        object text = "text";
        OfStaticMethod.Call();
        Console.WriteLine(OfStaticField.Number);
        new OfInstanceMethod().Call();
        OfAbstractMethod none = text as OfAbstractMethod;
        if (none != null) none.Call();
        OfInstanceField structure = new OfInstanceField();
        structure.Number = 5;
        Console.WriteLine(structure.Number);
        Console.WriteLine(text is OfNamedType);
    }
}
