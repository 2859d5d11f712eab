// The library of assembly_attributes.cs.
using System;

[assembly: Library("goes with the library's row")]
[module: Library("goes with the library's row")]

public class TagAttribute : Attribute
{
    public TagAttribute(string text) { }
    public TagAttribute(int unused) { }
}

public class LibraryAttribute : Attribute
{
    public LibraryAttribute(string text) { }
}

public static class Library
{
    public static int Number() { return Helper.Number(); }
    public static int Unused() { return 9; }
}

static class Helper
{
    public static int Number() { return 8; }
}
