// A type named <Module> that isn't the first of its file (II.22.37) is a type as any other: it is kept where it is needed, and gets a new
// name beside the first file's <Module>. In both files of this program the names of `Other` and `<Module>` stand in each other's place
// where mcs wrote them: the library's first type is named Other, its second, which the program names, <Module>.
using System;

static class Program
{
    static void Main() { Console.WriteLine(Other.Twice(21)); }
}
