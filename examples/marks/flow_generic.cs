// A type argument for a type parameter with DynamicallyAccessedMembers has the members of these kinds, wherever kept items name the
// constructed type, also inside another one: in code, locals, signatures, a base, a field's type and an interface's row; with
// the constraint new() the public constructor without parameters. A constraint alone asks for nothing, an array has nothing of
// its elements, and what another type parameter stands for isn't known.
using System;
using System.Diagnostics.CodeAnalysis;

namespace System.Diagnostics.CodeAnalysis
{
    [AttributeUsage(AttributeTargets.All)]
    class DynamicallyAccessedMembersAttribute : Attribute
    {
        public DynamicallyAccessedMembersAttribute(DynamicallyAccessedMemberTypes kinds) { }
    }

    [Flags]
    enum DynamicallyAccessedMemberTypes
    {
        PublicFields = 0x20,
        PublicProperties = 0x200
    }
}

class OfMethod { public int Kept { get { return 1; } set { } } public int Gone; }
class OfType { public int Kept; int gone; public int Gone { get { return 1; } } }
class OfPlain { public int Gone; }
class OfInner { public int Kept; }
class OfLocal { public int Kept; }
class OfSignature { public int Kept; }
class OfBase { public int Kept; }
class OfField { public int Kept; }
class OfRow { public int Kept; }
class OfTest { public int Kept; }
class OfConstraint { public int Gone; }
class OfArray { public int Gone; }
class OfParameter { public int Gone; }
class OfNew { public OfNew() { } public OfNew(int n) { } public override string ToString() { return "made"; } }

class Box<[DynamicallyAccessedMembers(DynamicallyAccessedMemberTypes.PublicFields)] T> { }
class Pair<A, [DynamicallyAccessedMembers(DynamicallyAccessedMemberTypes.PublicFields)] B> { }
class Wrap<T> { }
class Passes<T> { public Box<T> Passed; }
class Derived : Box<OfBase> { }
class Constrained<T> where T : Box<OfConstraint> { }
class Creates<T> where T : new() { }

interface IHas<[DynamicallyAccessedMembers(DynamicallyAccessedMemberTypes.PublicFields)] T> { }
class Has : IHas<OfRow> { }

static class Program
{
    static Wrap<Box<OfField>> field;

    static void Main()
    {
        Show<OfMethod>();
        object any = new Pair<OfPlain, OfType>();
        Console.WriteLine(any is Wrap<Box<OfInner>>);
        Box<OfLocal> local = null;
        Console.WriteLine(local == null);
        Sign(null);
        Console.WriteLine(typeof(Derived).Name);
        field = null;
        any = new Has();
        Console.WriteLine(any is IHas<OfTest>);
        Console.WriteLine(typeof(Constrained<>).Name);
        Console.WriteLine(any is Box<OfArray[]>);
        new Passes<OfParameter>().Passed = null;
        Console.WriteLine(any is Creates<OfNew>);
    }

    static void Show<[DynamicallyAccessedMembers(DynamicallyAccessedMemberTypes.PublicProperties)] T>() { Console.WriteLine(typeof(T).Name); }
    static void Sign(Box<OfSignature> box) { }
}
