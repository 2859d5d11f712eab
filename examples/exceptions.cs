// Exceptions, their handlers, and initializers that fail (I.12.4.2, II.10.5.3).
using System;

class OwnException : Exception
{
    public readonly int Code;
    public OwnException(int code, string message) : base(message) { Code = code; }
    public OwnException(int code, Exception inner) : base("outer", inner) { Code = code; }
}

class Broken { public static int Value; static Broken() { Value = Start(); } static int Start() { throw new InvalidOperationException("broken start"); } }

class Ordered
{
    static Ordered() { Console.WriteLine("Ordered begins"); }
    public static void Touch() { Console.WriteLine("touched"); }
}

class Counted<T>
{
    public static int Count;
    static Counted() { Console.WriteLine("Counted begins"); Count = 10; }
}

abstract class Shape { public abstract int Area(); }

static class Exceptions
{
    static int depth;

    static int Finally(int n)
    {
        try { if (n > 0) return n; Console.WriteLine("body"); }
        finally { Console.WriteLine("finally"); }
        return -n;
    }

    static void Rethrow()
    {
        try
        {
            try { throw new ArgumentException("again"); }
            catch (ArgumentException e) { Console.WriteLine(e.Message); throw; }
        }
        catch (Exception e) { Console.WriteLine(e is ArgumentException); Console.WriteLine(e.Message); }
    }

    static void Wrap()
    {
        try
        {
            try { object o = null; o.ToString(); }
            catch (NullReferenceException e) { throw new OwnException(7, e); }
        }
        catch (OwnException e)
        {
            Console.WriteLine(e.Code); Console.WriteLine(e.Message); Console.WriteLine(e.InnerException is NullReferenceException);
        }
    }

    static int Loop()
    {
        int sum = 0;
        for (int i = 0; i < 5; i++)
        {
            try { if (i == 1) continue; if (i == 3) break; sum += i; }
            finally { sum += 100; }
        }
        return sum;
    }

    static void Deep(int n)
    {
        depth++;
        try { if (n == 0) throw new NotSupportedException(); Deep(n - 1); }
        finally { depth--; }
    }

    static int ThrowInFinally()
    {
        try
        {
            try
            {
                try { throw new NotImplementedException("first"); }
                finally { throw new InvalidOperationException("second"); }
            }
            catch (InvalidOperationException e) { Console.WriteLine(e.Message); return 1; }
        }
        catch (NotImplementedException) { return 2; }
    }

    static void Casts()
    {
        object o = "text";
        try { Exception e = (Exception)o; Console.WriteLine(e == null); } catch (InvalidCastException) { Console.WriteLine("cast"); }
        try { int i = (int)o; Console.WriteLine(i); } catch (InvalidCastException) { Console.WriteLine("unbox"); }
        try { int i = (int)(object)null; Console.WriteLine(i); } catch (NullReferenceException) { Console.WriteLine("unbox null"); }
        try { object[] all = new string[1]; all[0] = new object(); } catch (ArrayTypeMismatchException) { Console.WriteLine("mismatch"); }
        try { int[] a = new int[2]; a[2] = 1; } catch (IndexOutOfRangeException) { Console.WriteLine("index"); }
        try { int n = -1; int[] a = new int[n]; Console.WriteLine(a.Length); } catch (OverflowException) { Console.WriteLine("length"); }
        try { Shape s = null; Console.WriteLine(s.Area()); } catch (NullReferenceException) { Console.WriteLine("null call"); }
        try { int[] a = null; Console.WriteLine(a.Length); } catch (NullReferenceException) { Console.WriteLine("null array"); }
        try { Exception none = null; throw none; } catch (NullReferenceException) { Console.WriteLine("throw null"); }
    }

    static void Main()
    {
        Console.WriteLine(Finally(5)); Console.WriteLine(Finally(0));
        Rethrow(); Wrap(); Console.WriteLine(Loop());
        try { Deep(20); } catch (NotSupportedException) { Console.WriteLine(depth); }
        Console.WriteLine(ThrowInFinally());
        Casts();
        for (int i = 0; i < 2; i++)
        {
            try { Console.WriteLine(Broken.Value); }
            catch (TypeInitializationException e) { Console.WriteLine(e.InnerException.Message); }
        }
        Ordered.Touch(); Ordered.Touch();
        Console.WriteLine(Counted<int>.Count++); Console.WriteLine(Counted<int>.Count); Console.WriteLine(Counted<string>.Count);
        try { throw new ArgumentNullException("who"); } catch (ArgumentException e) { Console.WriteLine(e is ArgumentNullException); }
        throw new OwnException(9, "the end");
    }
}
