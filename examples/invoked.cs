// examples/invoked.exe is this program, as mcs compiles it: mcs -optimize+ invoked.cs
// It calls methods, and reads and sets fields and properties, that it found by their names. Of invoked.out the lines 'generic', 'null
// inside', 'of an open type' and those from the second 'no target' on are written by hand: mono's GetValue of properties differs there.
using System;
using System.Reflection;

public class Account
{
    public int Balance;
    public string Owner = "nobody";
    public static int Opened = 7;
    public const int Limit = 100;

    public Account() { Opened++; }
    public virtual string Describe() { return string.Concat("account of ", Owner); }
    public int Pay(int amount, string who)
    {
        if (amount < 0) throw new ArgumentException("a negative amount");
        Balance += amount;
        if (who != null) Owner = who;
        return Balance;
    }
    public void Clear() { Balance = 0; }
    public static long Twice(long n) { return n * 2; }
    public static bool Same(object a, object b) { return a == b; }
    public T Echo<T>(T what) { return what; }
    public int Worth { get { return Balance; } set { Balance = value; } }
    public string Label { get { return Describe(); } }
    public static string Bank { get; set; }
    public int this[int i] { get { return i; } set { Balance = i + value; } }
}

public class Savings : Account
{
    public override string Describe() { return string.Concat("savings of ", Owner); }
}

public interface IShape
{
    int Area();
}

public struct Square : IShape
{
    public int Side;
    public int Area() { return Side * Side; }
    public Square Larger(int by) { Square s = this; s.Side += by; return s; }
    public void Grow() { Side++; }
}

public enum Color { Red, Green, Blue }

public static class Loud
{
    public static int Count = 40;
    static Loud() { Console.WriteLine("Loud begins"); Count++; }
    public static string Shout(string what) { return string.Concat(what, "!"); }
}

public static class Loud2
{
    public static int Count = 50;
    static Loud2() { Console.WriteLine("Loud2 begins"); Count++; }
}

public class Box<T>
{
    public T Content;
    public T Get() { return Content; }
    public static T[] Two(T a, T b) { return new T[] { a, b }; }
}

public class Node
{
    public static Color Next(Color c) { return c == Color.Blue ? Color.Red : (Color)((int)c + 1); }
    public static void Fill(int[] numbers) { numbers[0] = 5; }
    public static string Nothing() { return null; }
}

public static class Program
{
    static object[] Args(object a) { return new object[] { a }; }
    static object[] Args(object a, object b) { return new object[] { a, b }; }

    static void Show(string label, object o)
    {
        Console.Write(label);
        Console.Write(": ");
        Console.WriteLine(o == null ? "null" : o);
    }

    // What a call gives, or the class of what it throws, and of what that wraps.
    static void Call(string label, MethodInfo m, object target, object[] args)
    {
        try { Show(label, m.Invoke(target, args)); }
        catch (TargetInvocationException e)
        {
            Show(label, string.Concat("wraps ", e.InnerException.GetType().Name, " ", e.InnerException.Message));
        }
        catch (Exception e) { Show(label, e.GetType().Name); }
    }

    static void Methods(Account a)
    {
        Type t = typeof(Account);
        MethodInfo pay = t.GetMethod("Pay");
        Call("pay", pay, a, Args(30, "Ann"));
        Call("pay and keep the owner", pay, a, Args(12, null));
        Call("zero for null", pay, a, Args(null, "Bob"));
        Call("throws", pay, a, Args(-1, null));
        Call("no target", pay, null, Args(1, null));
        Call("another's target", pay, "text", Args(1, null));
        Call("too few", pay, a, Args(1));
        Call("no arguments", pay, a, null);
        Call("a text for a number", pay, a, Args("1", null));
        Call("a number for a text", pay, a, Args(1, 2));
        Call("the target comes first", pay, null, null);
        Call("then the count", pay, a, Args("1"));
        Call("nothing", t.GetMethod("Clear"), a, null);
        Call("cleared", t.GetMethod("get_Worth"), a, new object[0]);
        Call("static", t.GetMethod("Twice"), null, Args(21L));
        Call("with a target that isn't looked at", t.GetMethod("Twice"), "text", Args(4L));
        Call("null for a number", t.GetMethod("Twice"), null, Args(null));
        Call("same", t.GetMethod("Same"), null, Args(a, a));
        Call("generic", t.GetMethod("Echo"), a, Args(1));
        Call("described", t.GetMethod("Describe"), a, null);
        Call("described by its own", t.GetMethod("Describe"), new Savings(), null);
        Call("inherited", typeof(Savings).GetMethod("Pay"), new Savings(), Args(3, "Eve"));
        Call("not inherited upwards", typeof(Savings).GetMethod("Describe"), a, null);
    }

    static void Values()
    {
        object box = new Square { Side = 3 };
        Call("area", typeof(Square).GetMethod("Area"), box, null);
        Call("by the interface", typeof(IShape).GetMethod("Area"), box, null);
        object larger = typeof(Square).GetMethod("Larger").Invoke(box, Args(2));
        Call("of a larger one", typeof(Square).GetMethod("Area"), larger, null);
        typeof(Square).GetMethod("Grow").Invoke(box, null);
        Call("grown in its box", typeof(Square).GetMethod("Area"), box, null);
        object next = typeof(Node).GetMethod("Next").Invoke(null, Args(Color.Green));
        Show("next", (int)(Color)next);
        Call("an enum's null", typeof(Node).GetMethod("Next"), null, Args(null) == null ? null : Args("Red"));
        int[] numbers = new int[] { 1, 2 };
        Call("fill", typeof(Node).GetMethod("Fill"), null, Args(numbers));
        Show("filled", numbers[0]);
        Call("another array", typeof(Node).GetMethod("Fill"), null, Args(new string[1]));
        Call("null inside", typeof(Node).GetMethod("Fill"), null, Args(null));
        Call("gives null", typeof(Node).GetMethod("Nothing"), null, null);
        Call("of a generic type", typeof(Box<int>).GetMethod("Get"), new Box<int> { Content = 8 }, null);
        Call("of an open type", typeof(Box<>).GetMethod("Get"), new Box<int>(), null);
        Show("two", ((string[])typeof(Box<string>).GetMethod("Two").Invoke(null, Args("a", "b")))[1]);
    }

    static void Core()
    {
        Call("length", typeof(string).GetMethod("get_Length"), "four", null);
        Call("unit", typeof(string).GetMethod("get_Chars"), "four", Args(1));
        Call("unit outside", typeof(string).GetMethod("get_Chars"), "four", Args(9));
        Call("empty", typeof(string).GetMethod("IsNullOrEmpty"), null, Args(""));
        Call("text of a number", typeof(object).GetMethod("ToString"), 12, null);
        Call("text of a truth", typeof(object).GetMethod("ToString"), true, null);
        Call("text of a program's type", typeof(object).GetMethod("ToString"), new Savings(), null);
        Call("type", typeof(object).GetMethod("GetType"), 'c', null);
        Call("same reference", typeof(object).GetMethod("ReferenceEquals"), null, Args("x", "x"));
        Call("message", typeof(Exception).GetMethod("get_Message"), new Exception("told"), null);
        Call("a field's value", typeof(FieldInfo).GetMethod("GetValue"), typeof(Loud2).GetField("Count"), Args(null));
        Call("name", typeof(MemberInfo).GetMethod("get_Name"), typeof(Account).GetMethod("Pay"), null);
        Call("member", typeof(Type).GetMethod("get_IsArray"), typeof(int[]), null);
    }

    static void Fields(Account a)
    {
        FieldInfo balance = typeof(Account).GetField("Balance");
        balance.SetValue(a, 61);
        Show("balance", balance.GetValue(a));
        balance.SetValue(a, null);
        Show("null is zero", balance.GetValue(a));
        FieldInfo owner = typeof(Account).GetField("Owner");
        owner.SetValue(a, "Zoe");
        Show("owner", owner.GetValue(a));
        owner.SetValue(a, null);
        Show("no owner", owner.GetValue(a));
        try { owner.SetValue(a, 5); } catch (ArgumentException) { Console.WriteLine("a number is no owner"); }
        try { balance.GetValue(null); } catch (TargetException) { Console.WriteLine("no target"); }
        try { balance.GetValue("text"); } catch (ArgumentException) { Console.WriteLine("mono says argument"); } catch (TargetException) { Console.WriteLine("mono says argument"); }
        FieldInfo opened = typeof(Account).GetField("Opened");
        opened.SetValue(null, 70);
        Show("opened", opened.GetValue(null));
        Show("of an inherited field", typeof(Savings).GetField("Balance").GetValue(new Savings()));
        FieldInfo side = typeof(Square).GetField("Side");
        object box = new Square { Side = 2 };
        side.SetValue(box, 6);
        Show("side in the box", side.GetValue(box));
        Show("area", ((Square)box).Area());
        Show("count", typeof(Loud).GetField("Count").GetValue(null));
        Show("content", typeof(Box<string>).GetField("Content").GetValue(new Box<string> { Content = "inside" }));
    }

    static void Properties(Account a)
    {
        PropertyInfo worth = typeof(Account).GetProperty("Worth");
        worth.SetValue(a, 17);
        Show("worth", worth.GetValue(a));
        PropertyInfo bank = typeof(Account).GetProperty("Bank");
        bank.SetValue(null, "river");
        Show("bank", bank.GetValue(null));
        PropertyInfo label = typeof(Account).GetProperty("Label");
        Show("label", label.GetValue(new Savings()));
        try { label.SetValue(a, "x"); } catch (ArgumentException) { Console.WriteLine("no setter"); }
        try { worth.GetValue(null); } catch (TargetException) { Console.WriteLine("no target"); }
        try { typeof(Account).GetProperty("Item").GetValue(a); } catch (TargetParameterCountException) { Console.WriteLine("an index is missing"); }
        try { worth.SetValue(a, "x"); } catch (ArgumentException) { Console.WriteLine("no number"); }
    }

    static void Shouted()
    {
        Call("shout", typeof(Loud).GetMethod("Shout"), null, Args("hey"));
        Call("shout again", typeof(Loud).GetMethod("Shout"), null, Args("ho"));
    }

    // A try block around the call catches what the method throws only as it is wrapped.
    static void Caught(Account a)
    {
        try
        {
            try { typeof(Account).GetMethod("Pay").Invoke(a, Args(-5, null)); }
            catch (ArgumentException) { Console.WriteLine("not this"); }
            finally { Console.WriteLine("on the way"); }
        }
        catch (TargetInvocationException e) { Show("wrapped", e.InnerException.Message); }
    }

    public static int Main()
    {
        Account a = new Account();
        Methods(a);
        Values();
        Core();
        Fields(a);
        Properties(a);
        Shouted();
        Caught(a);
        return a.Balance;
    }
}
