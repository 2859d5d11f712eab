// A trim begins with the entry method and the first input's <Module>. A method, field or type that these don't lead to goes, also in
// a type that stays. Of a class only the fields stay that code names.
using System;

class Other
{
    static void Call() { Console.WriteLine("other"); }
}

static class Program
{
    static int used, unused;

    static void Main()
    {
        used = 3;
        Console.WriteLine(Twice(used));
    }

    static int Twice(int n) { return n + n; }

    static void Unused() { unused = Twice(1); }
}
