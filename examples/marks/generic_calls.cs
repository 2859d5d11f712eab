// A virtual call of a generic class or interface counts for all its instances, whatever the arguments: an override is found with the
// arguments of the base put into the signature (II.10.3, II.9.9). Of a generic method each kept use counts as one.
using System;

abstract class Source<T>
{
    public abstract T Next();
    public virtual T Peek() { return Next(); }
    public virtual T Unasked() { return Next(); }
}

class Numbers : Source<int>
{
    public override int Next() { return 1; }
    public override int Peek() { return 2; }
    public virtual string Next(int other) { return "other"; }
}

class Texts : Source<string>
{
    public override string Next() { return "text"; }
    public override string Peek() { return "peeked"; }
}

class Pairs<A, B> : Source<B>
{
    public override B Next() { return default(B); }
    public override B Unasked() { return default(B); }
}

class Visitor
{
    public virtual void Visit<T>(T thing) { Console.WriteLine("visited"); }
    public virtual void Visit(int thing) { Console.WriteLine("unvisited"); }
}

class Shouter : Visitor
{
    public override void Visit<T>(T thing) { Console.WriteLine("VISITED"); }
    public override void Visit(int thing) { Console.WriteLine("UNVISITED"); }
}

static class Program
{
    static void Main()
    {
        Source<int> numbers = new Numbers();
        Console.WriteLine(numbers.Peek());
        Console.WriteLine(new Texts() == null);
        Console.WriteLine(new Pairs<int, string>() == null);
        Visitor visitor = new Shouter();
        visitor.Visit<string>("thing");
    }
}
