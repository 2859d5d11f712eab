// A field or a return of type Type with DynamicallyAccessedMembers asks for the members of these kinds of each type that is stored to
// it, or that the method returns. The annotation of the field or the return of another class doesn't count, nor does a value that is
// loaded from an annotated field.
using System;
using System.Diagnostics.CodeAnalysis;

namespace System.Diagnostics.CodeAnalysis
{
    [AttributeUsage(AttributeTargets.All)]
    class DynamicallyAccessedMembersAttribute : Attribute
    {
        public DynamicallyAccessedMembersAttribute(DynamicallyAccessedMemberTypes kinds) { }
    }

    [Flags]
    enum DynamicallyAccessedMemberTypes
    {
        PublicFields = 0x20,
        NonPublicFields = 0x40,
        PublicProperties = 0x200
    }
}

class ToStatic { public int Kept; int gone; public void Gone() { } }
class ToInstance { public int Gone; int kept; }
class ToPlain { public int Gone; int gone; }
class Returned { public static int Kept { get { return 1; } private set { } } static int Gone { get { return 1; } } }
class ReturnedToo { public static int Kept { get { return 2; } } }
class ReturnedPlain { public static int Gone { get { return 3; } } }

class Holder
{
    [DynamicallyAccessedMembers(DynamicallyAccessedMemberTypes.PublicFields)]
    public static Type Static;
    [DynamicallyAccessedMembers(DynamicallyAccessedMemberTypes.NonPublicFields)]
    public Type Instance;
    public Type Plain;
}

static class Program
{
    static void Main()
    {
        Holder.Static = typeof(ToStatic);
        Holder holder = new Holder();
        holder.Instance = typeof(ToInstance);
        holder.Plain = typeof(ToPlain);
        holder.Plain = Holder.Static;
        holder.Instance = holder.Plain;
        Console.WriteLine(holder.Instance.Name);
        Console.WriteLine(Give(true).Name);
        Console.WriteLine(GivePlain().Name);
    }

    [return: DynamicallyAccessedMembers(DynamicallyAccessedMemberTypes.PublicProperties)]
    static Type Give(bool first)
    {
        if (first) return typeof(Returned);
        return typeof(ReturnedToo);
    }

    static Type GivePlain() { return typeof(ReturnedPlain); }
}
