// A call of an interface's method searches from the class that has the row for the interface (II.12.2): what it finds first is kept,
// and what overrides that in the made class too. With several rows for instances of one generic interface each is kept, whichever
// instance code calls.
using System;

interface ITold { string Tell(); }

class Teller : ITold
{
    public virtual string Tell() { return "teller"; }
}

class Liar : Teller
{
    public override string Tell() { return "liar"; }
}

interface IGive<T> { T Give(); }

class Giver : IGive<int>, IGive<string>
{
    int IGive<int>.Give() { return 3; }
    string IGive<string>.Give() { return "three"; }
}

static class Program
{
    static void Main()
    {
        ITold told = new Liar();
        Console.WriteLine(told.Tell());
        IGive<int> give = new Giver();
        Console.WriteLine(give.Give());
    }
}
