// The attributes of a kept item stay (II.22.10): those of its own row, of a method's parameters and return, and of its type
// parameters. Where the constructor is an input's, it is kept, with the fields and setters that the value names, the types in it, and
// the enums that it names. Making an attribute isn't making an object: its other members go, also an override of ToString.
using System;

[AttributeUsage(AttributeTargets.All, AllowMultiple = true)]
class NoteAttribute : NoteBase
{
    public NoteAttribute(string where) { }
    public NoteAttribute(Type type) { }
    public NoteAttribute(object any) { }
    public NoteAttribute(Type[] types) { }
    public NoteAttribute(int unused) { }
    public int Field, OtherField;
    public Type Setter { get { return null; } set { } }
    public string OtherSetter { get; set; }
    public override string ToString() { return "never called"; }
}

class NoteBase : Attribute
{
    public int InheritedField;
    public virtual int InheritedSetter { get { return 1; } set { } }
    public int UnusedField;
}

class GoneAttribute : Attribute { }

class OfArgument { public class Nested { } }
class OfSetter { }
class OfArray { }
class OfMethod { }
enum Boxed { One }
class Unused { }

[Note(typeof(OfArgument.Nested), Field = 3, Setter = typeof(OfSetter), InheritedField = 4, InheritedSetter = 5)]
[Note(new Type[] { typeof(OfArray), typeof(string) })]
class Named<[Note("type parameter")] T>
{
    [Note(Boxed.One)]
    public static int Kept;

    [Gone] public static int Dropped;
    [Gone] public static void Call() { }
}

static class Program
{
    static void Main() { Console.WriteLine(Add<int>(1)); }

    [Note(typeof(OfMethod))]
    [return: Note("return")]
    static int Add<[Note("method's type parameter")] T>([Note("parameter")] int n) { Named<int>.Kept = n; return n + 1; }
}
