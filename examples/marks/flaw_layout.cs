// A kept type has explicit layout and an instance field (II.10.1.2, II.22.8), whether the field is needed or not.
using System;
using System.Runtime.InteropServices;

[StructLayout(LayoutKind.Explicit)]
class Explicit { [FieldOffset(0)] int unused; }

static class Program
{
    static void Main() { object text = "text"; Console.WriteLine(text is Explicit); }
}
