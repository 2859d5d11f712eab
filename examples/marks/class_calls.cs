// A virtual method that code calls keeps what overrides it in each class of which objects are made; the core library's virtual
// methods (ToString, Finalize) count as called. An override in a class that is only named goes, and so does one of a method that
// nothing calls.
using System;

class Base
{
    public virtual int Called() { return 1; }
    public virtual int Uncalled() { return 1; }
}

class Made : Base
{
    public override int Called() { return 2; }
    public override int Uncalled() { return 2; }
    public override string ToString() { return "made"; }
    ~Made() { }
}

class Named : Base
{
    public override int Called() { return 3; }
    public override string ToString() { return "named"; }
}

class Inherits : Made { }

static class Program
{
    static void Main()
    {
        Base thing = new Inherits();
        Console.WriteLine(thing.Called());
        Console.WriteLine((object)thing);
        Console.WriteLine(thing is Named);
    }
}
