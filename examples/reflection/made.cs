// `Activator.CreateInstance` and the constraint new() ask for the public constructor without parameters of the classes that are known
// there, and objects of these may be made, so that their overrides are kept. `new T()` is such a call: what T is comes from the
// arguments of the method and of the type. A class for a parameter without the constraint is only named, also where the
// method makes a T by `Activator.CreateInstance`.
using System;

class ByType
{
    public ByType() { }
    public ByType(int n) { }
    public override string ToString() { return "by type"; }
}

class ByCall
{
    public override string ToString() { return "by call"; }
}

class ByMethod
{
    public ByMethod() { }
    ByMethod(int n) { }
    public override string ToString() { return "by method"; }
}

class ByOwner
{
    public override string ToString() { return "by owner"; }
}

class Named
{
    public override string ToString() { return "named"; }
}

class Unknown
{
    public override string ToString() { return "unknown"; }
}

class Factory<T> where T : new()
{
    public T Make() { return new T(); }
}

static class Program
{
    static void Main()
    {
        Console.WriteLine(Activator.CreateInstance(typeof(ByType)));
        Console.WriteLine((object)Activator.CreateInstance<ByCall>());
        Console.WriteLine((object)Make<ByMethod>());
        Console.WriteLine((object)new Factory<ByOwner>().Make());
        Console.WriteLine(Name<Named>());
        if (Console.Read() == 65) Free<Unknown>();
    }

    static T Make<T>() where T : new() { return new T(); }
    static string Name<T>() { return typeof(T).Name; }
    static void Free<T>() { Activator.CreateInstance<T>(); }
}
