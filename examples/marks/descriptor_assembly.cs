// A descriptor's `assembly` without types keeps all of that assembly: each type but <Module>, with all its members. A second
// `assembly` has a type that code needs anyway and one that nothing needs: with required="false" the members are kept just where
// the type is.
using System;

class Needed
{
    public static int Count;
    int optional;
    void Optional() { }
}

class Unneeded
{
    int optional;
}

class Whole
{
    public static int Count;
    int optional;
}

static class Program
{
    static void Main()
    {
        Needed.Count = 3;
        Whole.Count = 4;
        Console.WriteLine(Needed.Count + Whole.Count);
    }
}
