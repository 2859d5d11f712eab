// A kept method has a filter clause (II.25.4.6); its code ends the filter with an instruction that isn't taken, which comes first.
using System;

static class Program
{
    static void Main()
    {
        try { Console.WriteLine("text"); }
        catch (Exception e) when (e.Message == "no") { Console.WriteLine("filtered"); }
    }
}
