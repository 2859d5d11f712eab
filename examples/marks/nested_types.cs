// A kept type keeps the types around it and its bases (II.22.32, II.22.37), without members. A type doesn't keep the types in it, nor
// a base those that derive from it.
using System;

class Root { public virtual void Unused() { } }
class Middle : Root { public static int Count; }
class Leaf : Middle { }
class Sibling : Middle { }

class Outer
{
    public static void Unused() { }

    public class Inner
    {
        public class Innermost
        {
            public static int Number() { return 7; }
        }
    }

    public class Beside { }
}

static class Program
{
    static void Main()
    {
        object text = "text";
        Console.WriteLine(Outer.Inner.Innermost.Number());
        Console.WriteLine(text is Leaf);
    }
}
