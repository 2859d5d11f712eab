// Strings, characters, and what the core library gives of them.
using System;

class Named
{
    readonly string name;
    public Named(string name) { this.name = name; }
    public override string ToString() { return name; }
    public override bool Equals(object other) { return other is Named && ((Named)other).name == name; }
    public override int GetHashCode() { return 1; }
}

class Silent { public override string ToString() { return null; } }
class Plain { }

static class Texts
{
    static string Id(string s) { return s; }

    static void Try(string s, int from, int count)
    {
        try { Console.WriteLine(s.Substring(from, count)); }
        catch (ArgumentOutOfRangeException) { Console.WriteLine("out of range"); }
    }

    static void TryParse(string s)
    {
        try { Console.WriteLine(int.Parse(s)); }
        catch (ArgumentNullException) { Console.WriteLine("null"); }
        catch (FormatException) { Console.WriteLine("format"); }
        catch (OverflowException) { Console.WriteLine("overflow"); }
    }

    static void Main()
    {
        string a = Id("abc"), b = Id("abd"), nothing = Id(null), empty = Id("");
        Console.WriteLine(a.Length); Console.WriteLine(a[1]);
        try { Console.WriteLine(a[3]); } catch (IndexOutOfRangeException) { Console.WriteLine("index"); }
        Console.WriteLine(a + b); Console.WriteLine(a + nothing + b); Console.WriteLine(string.Concat(a, b, empty, "x"));
        Console.WriteLine(a == b); Console.WriteLine(a != b); Console.WriteLine(a.Equals(Id("abc"))); Console.WriteLine(a.Equals((object)"abc"));
        Console.WriteLine(nothing == null); Console.WriteLine(a.Equals(nothing)); Console.WriteLine(a.ToString());
        Console.WriteLine(a.Substring(1)); Try(a, 1, 1); Try(a, 3, 0); Try(a, 2, 2); Try(a, -1, 1);
        Console.WriteLine(a.IndexOf('c')); Console.WriteLine(a.IndexOf('z'));
        Console.WriteLine(string.IsNullOrEmpty(nothing)); Console.WriteLine(string.IsNullOrEmpty(empty)); Console.WriteLine(string.IsNullOrEmpty(a));
        Console.WriteLine(string.CompareOrdinal(a, b) < 0); Console.WriteLine(string.CompareOrdinal(b, a) > 0); Console.WriteLine(string.CompareOrdinal(a, a)); Console.WriteLine(string.CompareOrdinal(nothing, a) < 0);
        Console.WriteLine((object)string.Empty == (object)""); Console.WriteLine(object.ReferenceEquals(Id("lit"), "lit"));
        TryParse("42"); TryParse("-17"); TryParse("+5"); TryParse("x"); TryParse(""); TryParse(null); TryParse("2147483648"); TryParse("-2147483648");
        int n = -12; long l = 1L << 40; bool t = true; char c = 'é'; byte u = 200; uint big = 4000000000u; ulong huge = 18446744073709551615ul; short h = -3; sbyte s = -4; ushort us = 65535;
        Console.WriteLine(n.ToString()); Console.WriteLine(l.ToString()); Console.WriteLine(t.ToString()); Console.WriteLine(c.ToString()); Console.WriteLine(u.ToString());
        Console.WriteLine(big.ToString()); Console.WriteLine(huge.ToString()); Console.WriteLine(h.ToString()); Console.WriteLine(s.ToString()); Console.WriteLine(us.ToString());
        Console.WriteLine(n.Equals(-12)); Console.WriteLine(n.Equals((object)-12)); Console.WriteLine(n.Equals((object)-12L)); Console.WriteLine(l.Equals((object)(1L << 40))); Console.WriteLine(n.CompareTo(5)); Console.WriteLine(n.CompareTo(-20)); Console.WriteLine(n.CompareTo(-12));
        Console.Write(n); Console.Write(' '); Console.Write(l); Console.Write(" "); Console.Write(t); Console.Write(" "); Console.Write((object)a); Console.Write((object)null); Console.WriteLine();
        Console.WriteLine((object)null); Console.WriteLine((string)null); Console.WriteLine(new Named("N")); Console.WriteLine(new Silent()); Console.WriteLine(new Plain()); Console.WriteLine((object)5); Console.WriteLine((object)'x'); Console.WriteLine((object)false);
        Console.WriteLine(object.Equals(new Named("a"), new Named("a"))); Console.WriteLine(object.Equals(null, a)); Console.WriteLine(object.Equals(null, null)); Console.WriteLine(object.Equals(a, "abc"));
        Console.WriteLine(new Plain().Equals(new Plain())); Console.WriteLine(new int[2].ToString()); Console.WriteLine(new Plain[1]);
        Console.WriteLine("tab\tquote\" unicode \u00e9 \u4e2d \U0001F600");
        object boxed = 7; Console.WriteLine(boxed.Equals(7)); Console.WriteLine(boxed.ToString());
        Console.WriteLine(true & Id("x") == "x");
        for (string line = Console.ReadLine(); line != null; line = Console.ReadLine()) { Console.Write("["); Console.Write(line); Console.WriteLine("]"); }
        Console.WriteLine(Console.Read());
    }
}
