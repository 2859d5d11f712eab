// Of the rows of assemblies and modules those of the first input are written, with their attributes (II.22.2, II.22.30), so that the
// constructors of these are kept; the attributes of the other inputs' rows go. The keep list has the inputs in the order of the words,
// and the names that types had before a second type of one name got a new one (here Helper of the library).
using System;

[assembly: Tag("of the assembly")]
[module: Own]

class OwnAttribute : Attribute { }

static class Helper
{
    public static int Number() { return 1; }
}

static class Program
{
    static void Main() { Console.WriteLine(Library.Number() + Helper.Number()); }
}
