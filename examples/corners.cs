// examples/corners.exe is this program as mcs compiles it: mcs -optimize+ -out:corners.exe corners.cs
// What goes wrong easily and shows late: copies of structs, boxes, finally, initializers, hidden methods, stores into arrays.
using System;

struct Bare { public int N; public Bare(int n) { N = n; } public int Next() { return ++N; } }
struct Pair { public Bare Left, Right; }
interface ICounts { int Next(); }
struct Counter : ICounts { public int N; public int Next() { return ++N; } }
class Holder { public Bare Held; public readonly Bare Fixed = new Bare(5); public static Bare Shared; }

class Counted<T> { public static int Runs; public static int Value = Start(); static int Start() { Runs++; Console.WriteLine("begins"); return Runs; } static Counted() { } }

class Failing
{
    public static int Runs;
}

class Broken
{
    public static int Value;
    static Broken() { Failing.Runs++; throw new InvalidOperationException("broken"); }
    public Broken() { }
}

class First { public virtual string Name() { return "First"; } public string Call() { return Name(); } }
class Second : First { public new virtual string Name() { return "Second"; } public string CallOwn() { return Name(); } }
class Third : Second { public override string Name() { return "Third"; } }
class Fourth : Third { public new string Name() { return "Fourth"; } }

static class Corners
{
    static T Same<T>(T x) { return x; }
    static Bare Changed(Bare b) { b.N = 100; return b; }
    static void Change(ref Bare b) { b.N = 200; }
    static int Advance<T>(T counter) where T : ICounts { return counter.Next() + counter.Next(); }
    static string Text<T>(T x) { return x.ToString(); }
    static void Say(int n) { Console.WriteLine(n); }

    static void Structs()
    {
        Bare a = new Bare(1), b = a;
        a.N = 2; Say(b.N); Say(Changed(a).N); Say(a.N); Change(ref a); Say(a.N);
        Pair p = new Pair(), q = p; p.Left.N = 3; q.Right = p.Left; p.Left.N = 4; Say(q.Left.N); Say(q.Right.N);
        Bare[] all = new Bare[2]; all[0] = a; a.N = 5; Say(all[0].N); all[1] = all[0]; all[0].N = 6; Say(all[1].N); Bare from = all[1]; from.N = 7; Say(all[1].N);
        foreach (Bare each in all) Say(each.Next()); Say(all[0].N);
        Holder h = new Holder(), g = h; h.Held = a; a.N = 8; Say(h.Held.N); g.Held.N = 9; Say(h.Held.N); Say(h.Fixed.Next()); Say(h.Fixed.N);
        Holder.Shared = a; a.N = 10; Say(Holder.Shared.N); Holder.Shared.Next(); Say(Holder.Shared.N); Say(Same(a).Next()); Say(a.N);
    }

    static void Boxes()
    {
        int n = 1; object o = n, same = o; n = 2; Say((int)o); o = n; Say((int)same); Say((int)o);
        Counter c = new Counter(); object box = c; ICounts i = (ICounts)box; Say(i.Next()); Say(((Counter)box).N); Say(c.N);
        ICounts other = c; Say(other.Next()); Say(other.Next()); Say(c.N); Counter back = (Counter)box; back.N = 50; Say(i.Next());
        Say(Advance(c)); Say(c.N); Say(Advance(i)); Say(i.Next()); object again = box; ((ICounts)again).Next(); Say(((Counter)box).N);
        Console.WriteLine(object.ReferenceEquals(box, again)); object first = c, second = c; Console.WriteLine(object.ReferenceEquals(first, second));
        Console.WriteLine(Text(new Bare(3))); Console.WriteLine(Text(c)); Console.WriteLine(Text(12)); Console.WriteLine(Text("text")); Console.WriteLine(new Bare(4).ToString());
    }

    static int Nested(int way)
    {
        for (int i = 0; ; i++)
        {
            try
            {
                try
                {
                    if (way == 0) return 10;
                    if (way == 1) break;
                    if (way == 2 && i == 0) continue;
                    if (way == 3) throw new ArgumentException("way");
                    return 20;
                }
                finally { Console.WriteLine("inner"); try { Console.WriteLine("within"); } finally { Console.WriteLine("innermost"); } }
            }
            catch (InvalidOperationException) { Console.WriteLine("not this"); }
            finally { Console.WriteLine("outer"); }
        }
        return 30;
    }

    static void Finally()
    {
        for (int way = 0; way < 3; way++) Say(Nested(way));
        try { Nested(3); } catch (ArgumentException e) { Console.WriteLine(e.Message); }
        try { try { throw new ArgumentException("first"); } catch (ArgumentException) { throw new FormatException("second"); } finally { Console.WriteLine("once"); } }
        catch (FormatException e) { Console.WriteLine(e.Message); }
    }

    static void Initializers()
    {
        Say(Counted<int>.Value); Counted<int>.Value = 70; Say(Counted<string>.Value); Say(Counted<int>.Value); Say(Counted<int>.Runs); Say(Counted<object>.Runs);
        Exception inner = null;
        for (int i = 0; i < 3; i++)
        {
            try { if (i == 1) new Broken(); else Broken.Value = 1; Console.WriteLine("no"); }
            catch (TypeInitializationException e) { Console.WriteLine(inner == null || e.InnerException == inner); inner = e.InnerException; }
        }
        Console.WriteLine(inner.Message); Say(Failing.Runs);
    }

    static void Hidden()
    {
        First f = new Fourth(); Second s = new Fourth(); Third t = new Fourth();
        Console.WriteLine(f.Name()); Console.WriteLine(s.Name()); Console.WriteLine(t.Name()); Console.WriteLine(new Fourth().Name()); Console.WriteLine(f.Call()); Console.WriteLine(s.CallOwn()); Console.WriteLine(s.Call());
    }

    static void Store(object[] into, object x) { try { into[0] = x; Console.WriteLine("stored"); } catch (ArrayTypeMismatchException) { Console.WriteLine("mismatch"); } }

    static void Stores()
    {
        Store(new object[1], "x"); Store(new string[1], "x"); Store(new string[1], null); Store(new string[1], new object()); Store(new Second[1], new Fourth()); Store(new Second[1], new First()); Store(new ICounts[1], new Counter()); Store(new ICounts[1], 5);
        object[][] jagged = new string[1][]; Store(jagged, new string[0]); Store(jagged, new object[0]);
        try { object[] strings = new string[1]; Console.WriteLine(((string[])strings)[0] == null); Store(((object[])(object)new int[1][]), new int[1]); object all = new Bare[1]; Console.WriteLine(all is object[]); } catch (InvalidCastException) { Console.WriteLine("cast"); }
    }

    static void Numbers()
    {
        int least = Same(int.MinValue), one = Same(-1); long longest = Same(long.MinValue), minus = Same(-1L);
        try { Say(least % one); } catch (OverflowException) { Console.WriteLine("overflow"); }
        try { Console.WriteLine(longest % minus); } catch (OverflowException) { Console.WriteLine("overflow"); }
        try { Say((int)checked((uint)one)); } catch (OverflowException) { Console.WriteLine("overflow"); }
        try { Say(checked((byte)one)); } catch (OverflowException) { Console.WriteLine("overflow"); }
        try { Say(checked((char)one)); } catch (OverflowException) { Console.WriteLine("overflow"); }
        try { Console.WriteLine((long)checked((ulong)one)); } catch (OverflowException) { Console.WriteLine("overflow"); }
        try { Console.WriteLine((long)checked((ulong)minus)); } catch (OverflowException) { Console.WriteLine("overflow"); }
        Console.WriteLine((uint)one > Same(1u)); Console.WriteLine((ulong)minus > Same(1ul)); Console.WriteLine(one > Same(1)); Console.WriteLine((uint)one / 2 > Same(1000000u));
    }

    static int Main()
    {
        Structs(); Boxes(); Finally(); Initializers(); Hidden(); Stores(); Numbers();
        return 0;
    }
}
