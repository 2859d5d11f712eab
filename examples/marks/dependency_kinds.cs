// A DynamicDependency with member kinds and a type keeps all members of these kinds: of methods, fields and properties the public ones
// of the type and its bases, those that aren't public of the type and, where they aren't private, of its bases; a property is
// public where an accessor is, and is kept with all its accessors. Constructors are the type's alone, PublicParameterlessConstructor the
// one without parameters; initializers are of no kind. A kind that gives a constructor makes the type one of which objects are
// made. Nested types come with all their members and the types in them, interfaces with their rows and those of bases.
using System;
using System.Diagnostics.CodeAnalysis;

namespace System.Diagnostics.CodeAnalysis
{
    [AttributeUsage(AttributeTargets.All, AllowMultiple = true)]
    class DynamicDependencyAttribute : Attribute
    {
        public DynamicDependencyAttribute(DynamicallyAccessedMemberTypes kinds, Type type) { }
        public DynamicDependencyAttribute(DynamicallyAccessedMemberTypes kinds, string type, string assembly) { }
    }

    [Flags]
    enum DynamicallyAccessedMemberTypes
    {
        PublicParameterlessConstructor = 1,
        PublicConstructors = 3,
        NonPublicConstructors = 4,
        PublicMethods = 8,
        NonPublicMethods = 0x10,
        PublicFields = 0x20,
        NonPublicFields = 0x40,
        PublicNestedTypes = 0x80,
        NonPublicNestedTypes = 0x100,
        PublicProperties = 0x200,
        NonPublicProperties = 0x400,
        Interfaces = 0x2000,
        All = -1
    }
}

class MethodsBase
{
    public void PublicOfBase() { }
    public static void StaticOfBase() { }
    protected void FamilyOfBase() { }
    void PrivateOfBase() { }
}

class PublicMethods : MethodsBase
{
    public void Public() { }
    public static void Static() { }
    internal void Internal() { }
    void Private() { }
    public int Number { get { return 1; } internal set { } }
}

class NonPublicMethods : MethodsBase
{
    static NonPublicMethods() { }
    public void Public() { }
    internal void Internal() { }
    void Private() { }
}

class PublicConstructors
{
    public PublicConstructors() { }
    public PublicConstructors(int n) { }
    internal PublicConstructors(string text) { }
    public override string ToString() { return "made"; }
}

class ParameterlessConstructor
{
    public ParameterlessConstructor() { }
    public ParameterlessConstructor(int n) { }
}

class NonPublicConstructors : PublicConstructors
{
    public NonPublicConstructors() { }
    NonPublicConstructors(int n) { }
    protected NonPublicConstructors(string text) { }
}

class FieldsBase
{
    public int PublicOfBase;
    protected int FamilyOfBase;
    int privateOfBase;
}

class PublicFields : FieldsBase
{
    public static int Public;
    int privateField;
}

class NonPublicFields : FieldsBase
{
    public int Public;
    static int privateField;
}

class PropertiesBase
{
    public int OfBase { get { return 1; } }
}

class PublicProperties : PropertiesBase
{
    public int Public { get { return 1; } private set { } }
    internal int Internal { get { return 1; } set { } }
}

class NonPublicProperties
{
    public int Public { get { return 1; } private set { } }
    internal int Internal { get { return 1; } set { } }
    int Private { get { return 1; } }
}

class NestedTypes
{
    public class Public
    {
        int field;
        void Method() { }
        class Inner { int field; }
    }

    internal class Internal { }
    public static void Method() { }
}

class NonPublicNested
{
    public class Public { }
    protected class Family { static int field; }
    class Private { }
}

interface IOwn : IImplied { void Unneeded(); }
interface IImplied { }
interface IOfBase { }
class InterfacesBase : IOfBase { }
class Interfaces : InterfacesBase, IOwn { public void Unneeded() { } }

class EverythingBase { int privateOfBase; public int PublicOfBase; public EverythingBase() { } public class OfBase { } }
class Everything : EverythingBase
{
    Everything() { }
    int field;
    void Method() { }
    int Property { get { return 1; } }
    class Nested { int inner; }
}

static class Program
{
    [DynamicDependency(DynamicallyAccessedMemberTypes.PublicMethods, typeof(PublicMethods))]
    [DynamicDependency(DynamicallyAccessedMemberTypes.NonPublicMethods, typeof(NonPublicMethods))]
    [DynamicDependency(DynamicallyAccessedMemberTypes.PublicConstructors, typeof(PublicConstructors))]
    [DynamicDependency(DynamicallyAccessedMemberTypes.PublicParameterlessConstructor, "ParameterlessConstructor", "dependency_kinds")]
    [DynamicDependency(DynamicallyAccessedMemberTypes.NonPublicConstructors, typeof(NonPublicConstructors))]
    [DynamicDependency(DynamicallyAccessedMemberTypes.PublicFields, typeof(PublicFields))]
    [DynamicDependency(DynamicallyAccessedMemberTypes.NonPublicFields, typeof(NonPublicFields))]
    [DynamicDependency(DynamicallyAccessedMemberTypes.PublicProperties, typeof(PublicProperties))]
    [DynamicDependency(DynamicallyAccessedMemberTypes.NonPublicProperties, typeof(NonPublicProperties))]
    [DynamicDependency(DynamicallyAccessedMemberTypes.PublicNestedTypes, typeof(NestedTypes))]
    [DynamicDependency(DynamicallyAccessedMemberTypes.NonPublicNestedTypes, typeof(NonPublicNested))]
    [DynamicDependency(DynamicallyAccessedMemberTypes.Interfaces, typeof(Interfaces))]
    [DynamicDependency(DynamicallyAccessedMemberTypes.All, typeof(Everything))]
    static void Main() { Console.WriteLine("kinds"); }
}
