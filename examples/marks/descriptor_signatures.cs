// A descriptor names a method by `RETURN NAME(TYPE,TYPE)` and a field by `TYPE NAME`, in full names: nested types with `/`, arrays with
// `[]`, references with `&`, instances with their arguments in `<>`, type parameters by their names, and
// without modifiers.
using System;

class Box<T>
{
    public class Inner { }
    T value;
    int other;
    void Put(T value) { }
    void Put(int value) { }
    U Turn<U>(T[] from, U to) { return to; }
    int Turn<U>(T from, U to) { return 1; }
}

class Pair<A, B> { }

static class Program
{
    static int number;
    static string text;
    static volatile int counter;
    static Pair<int, Box<string>> pair;

    static void Main() { Console.WriteLine("signatures"); }

    static void Call() { }
    static int Call(string text, int[] numbers) { return 1; }
    static int Call(string text, int[][] numbers) { return 1; }
    static void Call(ref int number, Outer.Inner inner) { }
    static void Call(int number, Outer.Inner inner) { }
    static void Call(Pair<int, Box<string>> pair) { }
    static void Call(Pair<int, Box<int>> pair) { }
}

class Outer
{
    public class Inner { }
}
