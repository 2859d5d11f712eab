// A first file whose first type isn't named <Module> (II.22.37): that type stays, though nothing names it. Were it dropped, the kept type
// <Module> would come to its place, and its method would be a global one. In this program the names of `Other` and `<Module>` stand in
// each other's place where mcs wrote them: its first type is named Other, its second, which the program names, <Module>.
using System;

static class Other
{
    public static int Twice(int n) { return n + n; }
}

static class Program
{
    static void Main() { Console.WriteLine(Other.Twice(21)); }
}
