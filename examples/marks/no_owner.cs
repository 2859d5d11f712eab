// A field or method that no type's run has (II.22.37) belongs to nobody: it is never kept, also where a descriptor keeps all of the class
// whose source has it. The runs of this program begin one row later than mcs wrote them, so that `lost` and `Lost` are in none.
using System;

static class Program
{
    static int lost;
    static int count;

    static void Lost() { Console.WriteLine("lost"); }
    static void Main() { count = 2; Console.WriteLine(count); }
    static void Unused() { Console.WriteLine("unused"); }
}
