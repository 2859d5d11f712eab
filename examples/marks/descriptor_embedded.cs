// A descriptor in the resource ILLink.Descriptors.xml of an input counts beside those that the words name (here there is none).
using System;

static class Program
{
    static void Main() { Console.WriteLine("embedded"); }
    static void Named() { }
    static void Unnamed() { }
}
