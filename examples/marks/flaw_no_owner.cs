// A method that no type's run has (II.22.37) belongs to nobody: code that calls it names nothing. The runs of this program begin one row
// later than mcs wrote them, so that `Lost` is in none.
using System;

static class Program
{
    static void Lost() { Console.WriteLine("lost"); }
    static void Main() { Lost(); }
}
