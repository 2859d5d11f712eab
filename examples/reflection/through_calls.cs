// What a parameter, a field, a return or an element of an array gives isn't known where there is no annotation: a search there keeps
// nothing. A local whose address is taken may have anything, and what is known of it besides is kept.
using System;

class ByParameter { public static void Run() { } }
class ByField { public static void Run() { } }
class ByReturn { public static void Run() { } }
class ByElement { public static void Run() { } }
class ByAddress { public static void Run() { } public static void Other() { } }
class ByName { public static void Run() { } }

static class Program
{
    static Type field;

    static void Main()
    {
        Search(typeof(ByParameter));
        field = typeof(ByField);
        field.GetMethod("Run");
        Give().GetMethod("Run");
        Type[] types = new Type[1];
        types[0] = typeof(ByElement);
        types[0].GetMethod("Run");
        Type local = typeof(ByAddress);
        Touch(ref local);
        local.GetMethod("Run");
        Find("ByName");
        Console.WriteLine("searched");
    }

    static void Search(Type type) { type.GetMethod("Run"); }
    static Type Give() { return typeof(ByReturn); }
    static void Touch(ref Type type) { }

    static void Find(string name)
    {
        Type type = Type.GetType(name);
        if (type != null) type.GetMethod("Run");
    }
}
