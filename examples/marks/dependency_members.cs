// A DynamicDependency on a kept method or field keeps what it names: a member of its own type or of a given one, by its name (all
// overloads), as `#ctor`, or as a method with its parameters; of a type given by its text in the assembly of the third argument.
// A constructor named so makes its type one of which objects are made. A property named so is kept without its accessors. The
// attribute is known by its full name, also where an input defines it.
using System;
using System.Diagnostics.CodeAnalysis;

namespace System.Diagnostics.CodeAnalysis
{
    [AttributeUsage(AttributeTargets.All, AllowMultiple = true)]
    class DynamicDependencyAttribute : Attribute
    {
        public DynamicDependencyAttribute(string member) { }
        public DynamicDependencyAttribute(string member, Type type) { }
        public DynamicDependencyAttribute(string member, string type, string assembly) { }
    }
}

class Base { public virtual int Number() { return 1; } }

class Made : Base
{
    public Made() { }
    public Made(int other) { }
    public override int Number() { return 2; }
}

class Named : Base
{
    public override int Number() { return 3; }
    public static int Field;
}

class Picked
{
    public void Pick() { }
    public void Pick(int one) { }
    public void Pick(ref string one, Picked[] two) { }
    public void Pick(string one) { }
    public int Property { get; set; }
    public int Other { get; set; }
}

namespace Texts
{
    class ByText
    {
        public class Inner { public static void Found() { } public static void Lost() { } }
        public static void Lost() { }
    }
}

static class Program
{
    [DynamicDependency("Field", typeof(Named))]
    static int number;

    [DynamicDependency("Own")]
    [DynamicDependency("#ctor", typeof(Made))]
    [DynamicDependency("Pick()", typeof(Picked))]
    [DynamicDependency("Pick(System.String@,Picked[])", typeof(Picked))]
    [DynamicDependency("Property", typeof(Picked))]
    [DynamicDependency("Found", "Texts.ByText+Inner", "dependency_members")]
    static void Main()
    {
        Base thing = new Base();
        number = thing.Number();
        Console.WriteLine(number);
    }

    static void Own() { }
    static void Own(int n) { }

    [DynamicDependency("Lost", "Texts.ByText", "dependency_members")]
    static void Unused() { }
}
