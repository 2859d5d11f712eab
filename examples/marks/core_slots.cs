// The core library's types, interfaces and methods count as kept and called: a class that is only named keeps its answer to an abstract
// method of a core interface, and a made class all its overrides of core methods. An abstract class that is only named keeps neither.
using System;

class Named : IDisposable
{
    public void Dispose() { }
    public override string ToString() { return "named"; }
}

abstract class NamedAbstract : IDisposable
{
    public void Dispose() { }
    public override string ToString() { return "named"; }
}

class Made : Exception
{
    public Made(string text) : base(text) { }
    public override string Message { get { return string.Concat("made: ", base.Message); } }
    public override bool Equals(object other) { return other is Made; }
    public override int GetHashCode() { return 1; }
    public virtual string Uncalled() { return "uncalled"; }
}

static class Program
{
    static void Main()
    {
        object text = "text";
        Console.WriteLine(text is Named);
        Console.WriteLine(text is NamedAbstract);
        try { throw new Made("text"); }
        catch (Exception e) { Console.WriteLine(e.Message); }
    }
}
