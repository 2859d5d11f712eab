// A search for a method by its name keeps all public methods of that name, whatever they take: the type's and those of its bases,
// static ones too. Methods of that name that aren't public go, the type's too, and so do methods of other names.
using System;
using System.Reflection;

class Base
{
    public void M(string text) { }
    public static void M(long n) { }
    protected void M(bool b) { }
    void M(char c) { }
    public void OtherOfBase() { }
}

class Derived : Base
{
    public void M() { }
    public int M(int n, object any) { return n; }
    internal void M(uint n) { }
    void M(short n) { }
    public void Other() { }
}

static class Program
{
    static void Main()
    {
        try
        {
            typeof(Derived).GetMethod("M");
        }
        catch (AmbiguousMatchException)
        {
            Console.WriteLine("several");
        }
    }
}
