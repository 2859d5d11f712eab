// A kept method of the library searches for a member by its name, which marking doesn't follow yet. The program itself only looks at
// types; a method of it that makes an object by its type isn't called.
using System;

class Made { }

static class Program
{
    static void Main()
    {
        Console.WriteLine(typeof(Made).FullName);
        Console.WriteLine(Searching.Find() != null);
    }

    static object Make() { return Activator.CreateInstance(typeof(Made)); }
}
