// A text for a parameter, a field or a return of type string with DynamicallyAccessedMembers is the name of a type: each type that it
// finds, from this assembly or from the library, is kept, with the members of these kinds. A name that finds nothing keeps nothing.
// Texts for other parameters aren't names.
using System;
using System.Diagnostics.CodeAnalysis;

namespace System.Diagnostics.CodeAnalysis
{
    [AttributeUsage(AttributeTargets.All)]
    class DynamicallyAccessedMembersAttribute : Attribute
    {
        public DynamicallyAccessedMembersAttribute(DynamicallyAccessedMemberTypes kinds) { }
    }

    [Flags]
    enum DynamicallyAccessedMemberTypes
    {
        PublicMethods = 8
    }
}

class Named { public void Kept() { } void Gone() { } }
class Unnamed { public void Gone() { } }
class InField { public void Kept() { } }
class InReturn { public void Kept() { } }

namespace Space
{
    class Outer
    {
        public class Inner { public void Kept() { } }
        public void Gone() { }
    }
}

static class Program
{
    [DynamicallyAccessedMembers(DynamicallyAccessedMemberTypes.PublicMethods)]
    static string field;

    static void Main()
    {
        Find("Named", "Unnamed");
        Find("Space.Outer+Inner", "");
        Find("InLibrary", "");
        Find("Qualified, flow_texts_library", "");
        Find("System.String", "");
        Find("Inner", "Unnamed");
        field = "InField";
        Console.WriteLine(Give());
    }

    static void Find([DynamicallyAccessedMembers(DynamicallyAccessedMemberTypes.PublicMethods)] string name, string other)
    {
        Console.WriteLine(name);
        Console.WriteLine(other);
    }

    [return: DynamicallyAccessedMembers(DynamicallyAccessedMemberTypes.PublicMethods)]
    static string Give() { return "InReturn"; }
}
