// Kinds with a constructor make the type one of which objects are made, also where it has none of this kind: its overrides of what code
// calls are kept. Nested types come with all their members and the types in them, interfaces with their rows and those of bases.
// Several kinds add up, and a type that comes to several parameters has the kinds of each.
using System;
using System.Diagnostics.CodeAnalysis;

namespace System.Diagnostics.CodeAnalysis
{
    [AttributeUsage(AttributeTargets.All)]
    class DynamicallyAccessedMembersAttribute : Attribute
    {
        public DynamicallyAccessedMembersAttribute(DynamicallyAccessedMemberTypes kinds) { }
    }

    [Flags]
    enum DynamicallyAccessedMemberTypes
    {
        PublicParameterlessConstructor = 1,
        PublicConstructors = 3,
        NonPublicConstructors = 4,
        PublicFields = 0x20,
        PublicNestedTypes = 0x80,
        PublicProperties = 0x200,
        Interfaces = 0x2000
    }
}

class Shape
{
    public virtual string Say() { return "shape"; }
    public virtual string Unasked() { return "shape"; }
}

class Made : Shape
{
    public Made() { }
    public Made(int n) { }
    Made(string text) { }
    public override string Say() { return "made"; }
    public override string Unasked() { return "made"; }
    public override string ToString() { return "made"; }
}

class WithoutPublic : Shape
{
    WithoutPublic() { }
    public override string Say() { return "without"; }
}

class Named : Shape
{
    public override string Say() { return "named"; }
}

class Nesting
{
    public class Public
    {
        int field;
        void Method() { }
        class Inner { int field; }
    }

    class Private { }
    public void Gone() { }
}

interface IOwn { void Unneeded(); }
interface IOfBase { }
interface IUnneeded { }
class InterfacesBase : IOfBase { }
class Interfaces : InterfacesBase, IOwn { public void Unneeded() { } }
class Uninteresting : IUnneeded { }

class Several
{
    public int Field;
    public int Property { get { return 1; } }
    int gone;
    public void Gone() { }
}

static class Program
{
    static void Main()
    {
        Console.WriteLine(new Shape().Say());
        Make(typeof(Made));
        Make(typeof(WithoutPublic));
        Nest(typeof(Nesting));
        Implement(typeof(Interfaces));
        Name(typeof(Named), typeof(Uninteresting));
        Add(typeof(Several), typeof(Several));
    }

    static void Make([DynamicallyAccessedMembers(DynamicallyAccessedMemberTypes.PublicConstructors)] Type type) { Console.WriteLine(type.Name); }
    static void Nest([DynamicallyAccessedMembers(DynamicallyAccessedMemberTypes.PublicNestedTypes)] Type type) { Console.WriteLine(type.Name); }
    static void Implement([DynamicallyAccessedMembers(DynamicallyAccessedMemberTypes.Interfaces)] Type type) { Console.WriteLine(type.Name); }
    static void Name(Type type, Type other) { Console.WriteLine(type.Name); Console.WriteLine(other.Name); }

    static void Add(
        [DynamicallyAccessedMembers(DynamicallyAccessedMemberTypes.PublicFields | DynamicallyAccessedMemberTypes.Interfaces)] Type fields,
        [DynamicallyAccessedMembers(DynamicallyAccessedMemberTypes.PublicProperties)] Type properties)
    {
        Console.WriteLine(fields == properties);
    }
}
