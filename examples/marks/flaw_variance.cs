// A type parameter of a kept interface has variance (II.9.5): the place is its row in GenericParam, of which the first isn't at fault.
using System;

class Holder<T> { public static int Count; }
interface IVariant<T, out U> { }

static class Program
{
    static void Main() { object text = "text"; Console.WriteLine(text is IVariant<int, string>); Console.WriteLine(Holder<int>.Count); }
}
