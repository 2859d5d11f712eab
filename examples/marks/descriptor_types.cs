// A descriptor's `type` keeps the type; without `preserve` and members all its members (methods, fields, properties, events), with
// preserve="fields" or "methods" these, with members alone just those named (all overloads of a name), with both what either gives.
// A property that is named is kept with its accessors. Nested types are named with `/`, and aren't kept with the type around them. What
// keeps a constructor makes the type one of which objects are made: it then answers the virtual calls of the program.
using System;

namespace Space
{
    class All
    {
        int field;
        void Method() { }
        static int Static() { return 1; }
        public int Property { get { return 1; } set { } }
        class Nested { }
    }

    class Outer
    {
        static void Unneeded() { }

        public class Nested
        {
            int field;
        }
    }
}

class Fields : Base
{
    public int One;
    static int two;
    public override int Number() { return 2; }
}

class Methods : Base
{
    int field;
    public int Property { get { return 1; } }
    public override int Number() { return 3; }
}

class Nothing : Base
{
    int field;
    public override int Number() { return 4; }
}

class Some
{
    int field, other;
    public void Method() { }
    public void Method(int n) { }
    public void Other() { }
    public int Property { get { return 1; } set { } }
    public int OtherProperty { get { return 1; } }
}

class Both
{
    int field;
    void Method() { }
    void Other() { }
}

class Made : Base
{
    public Made() { }
    int field;
    public override int Number() { return 5; }
}

class Base
{
    public virtual int Number() { return 1; }
    public virtual int Uncalled() { return 1; }
}

static class Program
{
    static void Main() { Console.WriteLine(new Base().Number()); }
}
