// examples/core.exe is this program as mcs compiles it: mcs -optimize+ -out:core.exe core.cs
// Members of the core library: without input what each gives; with a letter of input a member that ends the run, as stopped, in the
// method of that letter. core.out has mono's lines, but the messages of the core library's table where mono has others, and not what a
// finalizer prints, since none runs.
using System;
using System.Reflection;

enum Color { Red, Green }

struct Pair
{
    public int Left;
    public int Right;
}

class Ended : IDisposable
{
    public void Dispose() { Console.WriteLine("disposed"); }

    ~Ended() { Console.WriteLine("never"); }
}

class Marker : Attribute { }

static class Core
{
    static void Tell(Exception without, Exception with, Exception both)
    {
        Console.WriteLine(without.Message);
        Console.Write(with.Message);
        Console.Write(" ");
        Console.Write(both.Message);
        Console.Write(" ");
        Console.WriteLine(both.InnerException.Message);
    }

    static void Messages()
    {
        Exception i = new Exception("i");
        Tell(new Exception(), new Exception("m"), new Exception("n", i));
        Tell(new SystemException(), new SystemException("m"), new SystemException("n", i));
        Tell(new ApplicationException(), new ApplicationException("m"), new ApplicationException("n", i));
        Tell(new MemberAccessException(), new MemberAccessException("m"), new MemberAccessException("n", i));
        Tell(new MissingMemberException(), new MissingMemberException("m"), new MissingMemberException("n", i));
        Tell(new ArgumentException(), new ArgumentException("m"), new ArgumentException("n", i));
        Tell(new ArgumentNullException(), new ArgumentNullException("m"), new ArgumentNullException("n", i));
        Tell(new ArgumentOutOfRangeException(), new ArgumentOutOfRangeException("m"), new ArgumentOutOfRangeException("n", i));
        Tell(new InvalidOperationException(), new InvalidOperationException("m"), new InvalidOperationException("n", i));
        Tell(new NotSupportedException(), new NotSupportedException("m"), new NotSupportedException("n", i));
        Tell(new NotImplementedException(), new NotImplementedException("m"), new NotImplementedException("n", i));
        Tell(new NullReferenceException(), new NullReferenceException("m"), new NullReferenceException("n", i));
        Tell(new InvalidCastException(), new InvalidCastException("m"), new InvalidCastException("n", i));
        Tell(new IndexOutOfRangeException(), new IndexOutOfRangeException("m"), new IndexOutOfRangeException("n", i));
        Tell(new ArrayTypeMismatchException(), new ArrayTypeMismatchException("m"), new ArrayTypeMismatchException("n", i));
        Tell(new ArithmeticException(), new ArithmeticException("m"), new ArithmeticException("n", i));
        Tell(new DivideByZeroException(), new DivideByZeroException("m"), new DivideByZeroException("n", i));
        Tell(new OverflowException(), new OverflowException("m"), new OverflowException("n", i));
        Tell(new FormatException(), new FormatException("m"), new FormatException("n", i));
        Tell(new TypeLoadException(), new TypeLoadException("m"), new TypeLoadException("n", i));
        Tell(new MissingMethodException(), new MissingMethodException("m"), new MissingMethodException("n", i));
        Tell(new AmbiguousMatchException(), new AmbiguousMatchException("m"), new AmbiguousMatchException("n", i));
        Tell(new TargetParameterCountException(), new TargetParameterCountException("m"), new TargetParameterCountException("n", i));
        Tell(new TargetException(), new TargetException("m"), new TargetException("n", i));
        Console.WriteLine(new TargetInvocationException("m", i).InnerException.Message);
    }

    // Each kind is caught as its base.
    static void Bases()
    {
        try { throw new DivideByZeroException(); } catch (ArithmeticException) { Console.WriteLine("arithmetic"); }
        try { throw new OverflowException(); } catch (ArithmeticException) { Console.WriteLine("arithmetic"); }
        try { throw new ArgumentNullException("x"); } catch (ArgumentException) { Console.WriteLine("argument"); }
        try { throw new ArgumentOutOfRangeException("x"); } catch (ArgumentException) { Console.WriteLine("argument"); }
        try { throw new MissingMethodException(); } catch (MissingMemberException) { Console.WriteLine("member"); }
        try { throw new MissingMemberException(); } catch (MemberAccessException) { Console.WriteLine("access"); }
        try { throw new TargetException(); } catch (ApplicationException) { Console.WriteLine("application"); }
        try { throw new FormatException(); } catch (SystemException) { Console.WriteLine("system"); }
    }

    static void Primitives()
    {
        bool truth = true; char letter = 'x'; sbyte s1 = -128; byte u1 = 255; short s2 = -32768; ushort u2 = 65535;
        int s4 = -2147483648; uint u4 = 4294967295; long s8 = -9223372036854775808; ulong u8 = 18446744073709551615;
        Console.WriteLine(string.Concat(truth.ToString(), letter.ToString(), s1.ToString(), u1.ToString()));
        Console.WriteLine(string.Concat(s2.ToString(), u2.ToString(), s4.ToString(), u4.ToString()));
        Console.WriteLine(string.Concat(s8.ToString(), " ", u8.ToString()));
        object o = u4;
        Console.WriteLine(u4.Equals(o)); Console.WriteLine(s4.Equals(o)); Console.WriteLine(s4.Equals(null));
        Console.WriteLine(truth.Equals((object)true)); Console.WriteLine(letter.Equals((object)'y'));
        Console.WriteLine(s1.Equals((object)s1)); Console.WriteLine(u1.Equals((object)s1)); Console.WriteLine(s2.Equals((object)s2));
        Console.WriteLine(u2.Equals((object)u2)); Console.WriteLine(s8.Equals((object)s8)); Console.WriteLine(u8.Equals((object)s8));
        Console.WriteLine(s4.Equals(-2147483648)); Console.WriteLine(s4.CompareTo(0)); Console.WriteLine(0.CompareTo(s4)); Console.WriteLine(7.CompareTo(7));
        Console.WriteLine(int.Parse("-2147483648")); Console.WriteLine(int.Parse("+12"));
        try { int.Parse(null); } catch (ArgumentNullException) { Console.WriteLine("null"); }
        try { int.Parse("1 x"); } catch (FormatException) { Console.WriteLine("format"); }
        try { int.Parse("2147483648"); } catch (OverflowException) { Console.WriteLine("overflow"); }
    }

    static void Texts()
    {
        string text = "text", none = null;
        object o = "text";
        Console.WriteLine(text.Equals(o)); Console.WriteLine(text.ToString()); Console.WriteLine(o.ToString());
        Console.WriteLine(string.Concat(none, none).Length);
        Console.WriteLine((object)string.Empty == (object)"");
        Array numbers = new int[] { 1, 2, 3 };
        Console.WriteLine(numbers.Length);
        using (new Ended()) Console.WriteLine("in use");
        Console.WriteLine(new Marker() is Attribute);
        Console.WriteLine(object.Equals(null, null)); Console.WriteLine(object.Equals(o, null)); Console.WriteLine(object.ReferenceEquals(o, text));
        Console.WriteLine(new object().Equals(o)); Console.WriteLine(new object().ToString());
    }

    static void A() { new object().GetHashCode(); }
    static void B() { "x".GetHashCode(); }
    static void C() { 5.GetHashCode(); }
    static void D() { object p = new Pair(); p.Equals(p); }
    static void E() { object p = new Pair(); p.GetHashCode(); }
    static void F() { object c = Color.Green; c.ToString(); }
    static void G() { object c = Color.Green; c.Equals(c); }
    static void H() { object c = Color.Green; c.GetHashCode(); }
    static void I() { new Exception("m").ToString(); }
    static void J() { object u = 7UL; u.GetHashCode(); }
    static void K() { object b = true; b.GetHashCode(); }
    static void L() { object c = 'x'; c.GetHashCode(); }
    static void M() { object s = (sbyte)1; s.GetHashCode(); }
    static void N() { object u = (byte)1; u.GetHashCode(); }
    static void O() { object s = (short)1; s.GetHashCode(); }
    static void P() { object u = (ushort)1; u.GetHashCode(); }
    static void Q() { object u = 1u; u.GetHashCode(); }
    static void R() { object s = 1L; s.GetHashCode(); }

    static void Main()
    {
        switch (Console.Read())
        {
            case 'a': A(); break;
            case 'b': B(); break;
            case 'c': C(); break;
            case 'd': D(); break;
            case 'e': E(); break;
            case 'f': F(); break;
            case 'g': G(); break;
            case 'h': H(); break;
            case 'i': I(); break;
            case 'j': J(); break;
            case 'k': K(); break;
            case 'l': L(); break;
            case 'm': M(); break;
            case 'n': N(); break;
            case 'o': O(); break;
            case 'p': P(); break;
            case 'q': Q(); break;
            case 'r': R(); break;
            default:
                Messages();
                Bases();
                Primitives();
                Texts();
                break;
        }
    }
}
