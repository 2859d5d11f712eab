// examples/hello.exe is this program as one small assembly, App 1.0.0.0, of 2048 bytes.
using System;

static class Program
{
    static void Main()
    {
        Console.WriteLine("Hi");
    }
}
