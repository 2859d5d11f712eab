// DynamicallyAccessedMembers asks for something on parameters, returns, fields and type parameters alone: on a class, a method, a property
// or an interface it asks for nothing. The attribute itself is kept as any other.
using System;
using System.Diagnostics.CodeAnalysis;

namespace System.Diagnostics.CodeAnalysis
{
    [AttributeUsage(AttributeTargets.All)]
    class DynamicallyAccessedMembersAttribute : Attribute
    {
        public DynamicallyAccessedMembersAttribute(DynamicallyAccessedMemberTypes kinds) { }
    }

    [Flags]
    enum DynamicallyAccessedMemberTypes
    {
        PublicMethods = 8
    }
}

[DynamicallyAccessedMembers(DynamicallyAccessedMemberTypes.PublicMethods)]
interface IAnnotated { }

[DynamicallyAccessedMembers(DynamicallyAccessedMemberTypes.PublicMethods)]
class Annotated : IAnnotated { public void Gone() { } }

class OfMethod { public void Gone() { } }
class OfSetter { public void Gone() { } }

static class Program
{
    static void Main()
    {
        object any = new Annotated();
        Console.WriteLine(any.GetType().Name);
        Console.WriteLine(any is IAnnotated);
        Console.WriteLine(Give().Name);
        Property = typeof(OfSetter);
    }

    [DynamicallyAccessedMembers(DynamicallyAccessedMemberTypes.PublicMethods)]
    static Type Give() { return typeof(OfMethod); }

    [DynamicallyAccessedMembers(DynamicallyAccessedMemberTypes.PublicMethods)]
    static Type Property { set { Console.WriteLine(value.Name); } }
}
