// Arithmetic, conversions, comparisons and branches (III.3).
using System;

static class Numbers
{
    enum Small : byte { One = 1, Two = 2, Many = 250 }

    static int Id(int x) { return x; }
    static long Id(long x) { return x; }
    static uint Id(uint x) { return x; }
    static ulong Id(ulong x) { return x; }

    static void Show(string name, int n) { Console.Write(name); Console.Write(" "); Console.WriteLine(n); }
    static void Show(string name, long n) { Console.Write(name); Console.Write(" "); Console.WriteLine(n); }
    static void Show(string name, bool b) { Console.Write(name); Console.Write(" "); Console.WriteLine(b); }

    static void Ints()
    {
        int a = Id(17), b = Id(-5), least = Id(int.MinValue);
        Show("add", a + b); Show("sub", a - b); Show("mul", a * b);
        Show("div", a / b); Show("rem", a % b); Show("rem2", b % a);
        Show("and", a & b); Show("or", a | b); Show("xor", a ^ b);
        Show("shl", a << Id(30)); Show("shr", b >> Id(1)); Show("shrun", (int)((uint)b >> Id(28)));
        Show("neg", -a); Show("not", ~a); Show("wrap", least - 1);
        Show("divun", (int)((uint)b / (uint)a)); Show("remun", (int)((uint)b % (uint)a));
        Show("negmin", -least);
    }

    static void Longs()
    {
        long a = Id(1L << 40), b = Id(-7L);
        Show("add", a + b); Show("sub", a - b); Show("mul", a * b);
        Show("div", a / b); Show("rem", a % b); Show("shl", a << Id(20)); Show("shr", b >> Id(2));
        Show("divun", (long)((ulong)b / (ulong)a)); Show("remun", (long)((ulong)b % (ulong)a));
        Show("shrun", (long)((ulong)b >> Id(60)));
    }

    static void Conversions()
    {
        int big = Id(70000), minus = Id(-1);
        Show("i1", (sbyte)big); Show("u1", (byte)big); Show("i2", (short)big); Show("u2", (ushort)big);
        Show("i8", (long)minus); Show("u8", (long)(uint)minus); Show("i4", (int)Id(1L << 33 | 5)); Show("u4", (long)(uint)Id(-2L));
        Show("char", (int)(char)big);
    }

    static void Checked()
    {
        try { Show("add", checked(Id(int.MaxValue) + Id(1))); } catch (OverflowException) { Console.WriteLine("add overflow"); }
        try { Show("sub", checked(Id(int.MinValue) - Id(1))); } catch (OverflowException) { Console.WriteLine("sub overflow"); }
        try { Show("mul", checked(Id(65536) * Id(65536))); } catch (OverflowException) { Console.WriteLine("mul overflow"); }
        try { Show("addun", (long)checked(Id(4000000000u) + Id(4000000000u))); } catch (OverflowException) { Console.WriteLine("addun overflow"); }
        try { Show("subun", (long)checked(Id(1u) - Id(2u))); } catch (OverflowException) { Console.WriteLine("subun overflow"); }
        try { Show("mulun", (long)checked(Id(1ul << 40) * Id(1ul << 40))); } catch (OverflowException) { Console.WriteLine("mulun overflow"); }
        try { Show("tobyte", checked((byte)Id(256))); } catch (OverflowException) { Console.WriteLine("tobyte overflow"); }
        try { Show("touint", (long)checked((uint)Id(-1))); } catch (OverflowException) { Console.WriteLine("touint overflow"); }
        try { Show("toint", checked((int)Id(4000000000u))); } catch (OverflowException) { Console.WriteLine("toint overflow"); }
        try { Show("tolong", checked((long)Id(1ul << 63))); } catch (OverflowException) { Console.WriteLine("tolong overflow"); }
        try { Show("toulong", (long)checked((ulong)Id(-1L))); } catch (OverflowException) { Console.WriteLine("toulong overflow"); }
        Show("fine", checked((sbyte)Id(-128)));
        try { Show("zero", Id(1) / Id(0)); } catch (DivideByZeroException) { Console.WriteLine("zero divisor"); }
        try { Show("zerorem", Id(1L) % Id(0L)); } catch (DivideByZeroException) { Console.WriteLine("zero divisor"); }
        try { Show("least", Id(int.MinValue) / Id(-1)); } catch (OverflowException) { Console.WriteLine("least overflow"); } catch (ArithmeticException) { Console.WriteLine("least arithmetic"); }
    }

    static void Comparisons()
    {
        int a = Id(-1), b = Id(1); uint c = Id(4294967295u), d = Id(1u); long e = Id(-1L); ulong f = Id(1ul);
        Show("lt", a < b); Show("gt", a > b); Show("le", a <= b); Show("ge", a >= b); Show("eq", a == b); Show("ne", a != b);
        Show("ltun", c < d); Show("gtun", c > d); Show("leun", c <= d); Show("geun", c >= d);
        Show("ltun8", (ulong)e < f); Show("lt8", e < (long)f);
        int count = 0;
        if (a < b) count += 1; if (c > d) count += 2; if (a != b) count += 4; if (!(a >= b)) count += 8; if (c >= d) count += 16; if (d <= c) count += 32;
        for (uint i = 0; i < d; i++) count += 64;
        Show("count", count);
    }

    static int Switch(int n)
    {
        switch (n) { case 0: return 10; case 1: return 11; case 2: return 12; case 3: return 13; case 7: return 17; default: return -1; }
    }

    static void Main()
    {
        Ints(); Longs(); Conversions(); Checked(); Comparisons();
        for (int i = -1; i < 9; i++) Show("switch", Switch(i));
        Small s = Small.Two;
        s++;
        Show("enum", (int)s); Show("many", (int)(byte)(s + 8));
        Show("both", s == Small.Two || s > Small.One);
        int x = 0; x += 5; x <<= 2; x ^= 3; Show("x", x);
    }
}
