// What a parameter of type Type or string with DynamicallyAccessedMembers gets has the members of these kinds: of each type that may
// come there, directly, by a variable, a condition or a loop, from a try block, or by a cast. The annotation counts for its own parameter,
// and not where the parameter's type is another. A type that comes to another parameter, or that a variable had before, is
// only named. What a parameter, a field or a call gives isn't known.
using System;
using System.Diagnostics.CodeAnalysis;

namespace System.Diagnostics.CodeAnalysis
{
    [AttributeUsage(AttributeTargets.All)]
    class DynamicallyAccessedMembersAttribute : Attribute
    {
        public DynamicallyAccessedMembersAttribute(DynamicallyAccessedMemberTypes kinds) { }
    }

    [Flags]
    enum DynamicallyAccessedMemberTypes
    {
        PublicMethods = 8
    }
}

class Direct { public static void Kept() { } static void Gone() { } public int Field; }
class ToOther { public void Gone() { } }
class Overwritten { public void Gone() { } }
class ByVariable { public void Kept() { } }
class One { public void Kept() { } }
class Two { public void Kept() { } }
class InTry { public void Kept() { } }
class Start { public void Kept() { } }
class Round { public void Kept() { } }
class ByCast { public void Kept() { } }
class ToMethod { public void Kept() { } }
class ToCreation { public void Kept() { } }
class AsObject { public void Gone() { } }
class ByReference { public void Gone() { } }
class ByParameter { public void Gone() { } }
class ByField { public void Gone() { } }
class ByCall { public void Gone() { } }

class Taker
{
    public Taker(Type other, [DynamicallyAccessedMembers(DynamicallyAccessedMemberTypes.PublicMethods)] Type type) { }
    public virtual void Take(Type other, [DynamicallyAccessedMembers(DynamicallyAccessedMemberTypes.PublicMethods)] Type type) { }
}

static class Program
{
    static Type field;

    static void Main()
    {
        Take(typeof(Direct), typeof(ToOther));
        Type type = typeof(Overwritten);
        type = typeof(ByVariable);
        Take(type, null);
        Take(field == null ? typeof(One) : typeof(Two), null);
        Handle();
        Loop();
        object any = typeof(ByCast);
        Take((Type)any, null);
        new Taker(null, typeof(ToCreation)).Take(null, typeof(ToMethod));
        TakeAny(typeof(AsObject));
        Type referred = typeof(ByReference);
        TakeReference(ref referred);
        Pass(typeof(ByParameter));
        field = typeof(ByField);
        Take(field, null);
        Take(Give(), null);
    }

    static void Handle()
    {
        Type type = null;
        try
        {
            type = typeof(InTry);
            throw new Exception();
        }
        catch (Exception)
        {
            Take(type, null);
        }
    }

    static void Loop()
    {
        Type type = typeof(Start);
        for (int i = 0; i < 2; i++)
        {
            Take(type, null);
            type = typeof(Round);
        }
    }

    static void Pass(Type type) { Take(type, null); }
    static Type Give() { return typeof(ByCall); }

    static void Take([DynamicallyAccessedMembers(DynamicallyAccessedMemberTypes.PublicMethods)] Type type, Type other)
    {
        Console.WriteLine(type.Name);
        if (other != null) Console.WriteLine(other.Name);
    }

    static void TakeAny([DynamicallyAccessedMembers(DynamicallyAccessedMemberTypes.PublicMethods)] object any) { }
    static void TakeReference([DynamicallyAccessedMembers(DynamicallyAccessedMemberTypes.PublicMethods)] ref Type type) { }
}
