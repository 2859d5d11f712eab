// Where a class names an interface again that its base has, a call of the interface's method runs what the class has (II.12.2). What
// the base answers for its own row is kept too. A class that only hides the method, without a row, answers with its base's.
using System;

interface ITold { string Tell(); }

class Teller : ITold
{
    public virtual string Tell() { return "teller"; }
}

class Again : Teller, ITold
{
    public new virtual string Tell() { return "again"; }
}

class HiddenTeller : ITold
{
    public virtual string Tell() { return "hidden teller"; }
}

class Hider : HiddenTeller
{
    public new virtual string Tell() { return "hider"; }
}

static class Program
{
    static void Main()
    {
        ITold told = new Again();
        Console.WriteLine(told.Tell());
        told = new Hider();
        Console.WriteLine(told.Tell());
    }
}
