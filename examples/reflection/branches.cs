// Where a variable may have one of several types, by a condition or in a loop, a search keeps what it asks for of each of them, and of
// several names each in each type. A cast changes nothing.
using System;

class One { public static void A() { Console.WriteLine("one"); } public static void B() { } }
class Two { public static void A() { Console.WriteLine("two"); } public static void B() { } }
class First { public static void A() { Console.WriteLine("first"); } public static void B() { } }
class Next { public static void A() { Console.WriteLine("next"); } public static void B() { } }
class Odd { public static void A() { Console.WriteLine("odd a"); } public static void B() { } public static void C() { } }
class Even { public static void A() { } public static void B() { Console.WriteLine("even b"); } public static void C() { } }

static class Program
{
    static void Main()
    {
        int key = Console.Read();
        Type type = key == 65 ? typeof(One) : typeof(Two);
        type.GetMethod("A").Invoke(null, null);

        object any = typeof(First);
        for (int i = 0; i < 2; i++)
        {
            ((Type)any).GetMethod("A").Invoke(null, null);
            any = typeof(Next);
        }

        Type both;
        string name;
        if (key == 65) { both = typeof(Odd); name = "A"; }
        else { both = typeof(Even); name = "B"; }
        both.GetMethod(name).Invoke(null, null);
    }
}
