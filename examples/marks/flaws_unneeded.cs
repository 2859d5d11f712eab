// What isn't kept may be of any form that a trim doesn't take: floating point in code and fields, explicit layout, platform calls,
// filters, variance, pointers, arrays of two dimensions, members of the core library that aren't there. It goes, and so do such
// fields of a class of which objects are made.
using System;
using System.Runtime.InteropServices;

[StructLayout(LayoutKind.Explicit)]
struct Explicit { [FieldOffset(0)] public int First; [FieldOffset(0)] public uint Second; }

interface IVariant<out T> { T Get(); }

class Holder
{
    public double Unused;
    public int Used;
    unsafe int* pointer;
    float[,] grid;
}

static class Program
{
    [DllImport("libc")] static extern int getpid();

    static void Main()
    {
        Holder holder = new Holder();
        holder.Used = 6;
        Console.WriteLine(holder.Used);
    }

    static double Half(double n) { return n / 2.0; }

    static int Filtered(object thing)
    {
        try { return thing.GetHashCode(); }
        catch (Exception e) when (e.Message == "no") { return getpid(); }
    }

    static uint Laid() { Explicit e = new Explicit(); e.First = 1; return e.Second; }

    static object Missing(IVariant<string> from) { return Math.Abs(from.Get().Length); }
}
