// Classes, interfaces, dispatch, generics, structs, boxes and arrays.
using System;

interface IShape { int Area(); string Name { get; } }
interface ISquare : IShape { int Side { get; set; } }
interface IPut<T> { void Put(T item); T Take(); }

abstract class Shape : IShape
{
    public abstract int Area();
    public virtual string Name { get { return "shape"; } }
    public string Twice() { return Name + Name; }
}

class Rect : Shape
{
    protected int w, h;
    public Rect(int w, int h) { this.w = w; this.h = h; }
    public override int Area() { return w * h; }
    public override string Name { get { return "rect"; } }
}

class Square : Rect, ISquare
{
    public Square(int side) : base(side, side) { }
    public new string Name { get { return "hidden"; } }
    string IShape.Name { get { return "square"; } }
    int IShape.Area() { return -base.Area(); }
    public int Side { get { return w; } set { w = value; h = value; } }
}

class Base { public virtual string M() { return "Base.M"; } public string Call() { return M(); } }
class Mid : Base { public new virtual string M() { return "Mid.M"; } }
class Top : Mid { public override string M() { return "Top.M"; } }

struct Point
{
    public int X, Y;
    public Point(int x, int y) { X = x; Y = y; }
    public void Move(int dx) { X += dx; }
    public override string ToString() { return X.ToString() + "," + Y.ToString(); }
}

struct Line { public Point From, To; public int Length() { return To.X - From.X; } }
struct Bare { public int N; }

class Box<T> : IPut<T>
{
    T item; static int made;
    public Box() { made++; }
    public void Put(T item) { this.item = item; }
    public T Take() { return item; }
    public static int Made { get { return made; } }
    public U Map<U>(IPut<U> into, U value) { into.Put(value); return into.Take(); }
}

class Pairs<K, V> { public K[] Keys = new K[3]; public V[] Values = new V[3]; public V this[int i] { get { return Values[i]; } set { Values[i] = value; } } }

class Node<T> { public T Value; public Node<T> Next; }

static class Objects
{
    enum Color { Red, Green = 5, Blue }

    static T Largest<T>(T[] items, IPut<T> last) { T best = default(T); for (int i = 0; i < items.Length; i++) { best = items[i]; last.Put(best); } return best; }
    static void Swap<T>(ref T a, ref T b) { T t = a; a = b; b = t; }
    static bool IsNull<T>(T x) { return x == null; }
    static void Fill(out int n) { n = 42; }
    static int Sum(params int[] all) { int sum = 0; foreach (int n in all) sum += n; return sum; }
    static string Kind(object o) { if (o is int) return "int"; if (o is string) return "string"; if (o is IShape) return "shape"; if (o is Array) return "array"; if (o is Color) return "color"; return o == null ? "null" : "other"; }

    static void Main()
    {
        Shape r = new Rect(2, 3); Square q = new Square(4); IShape i = q; ISquare s = q; Rect back = q;
        Console.WriteLine(r.Area()); Console.WriteLine(r.Name); Console.WriteLine(r.Twice());
        Console.WriteLine(q.Area()); Console.WriteLine(q.Name); Console.WriteLine(i.Area()); Console.WriteLine(i.Name); Console.WriteLine(back.Name);
        s.Side = 5; Console.WriteLine(s.Side); Console.WriteLine(s.Area());
        Base b = new Top(); Mid m = new Top(); Console.WriteLine(b.M()); Console.WriteLine(m.M()); Console.WriteLine(b.Call());
        Point p = new Point(1, 2), copy = p; p.Move(10); Console.WriteLine(p.X); Console.WriteLine(copy.X); Console.WriteLine(p.ToString());
        object boxed = p; p.Move(1); Console.WriteLine(boxed.ToString()); Point out1 = (Point)boxed; out1.Move(100); Console.WriteLine(((Point)boxed).X);
        Line line = new Line(); line.To.X = 9; line.To.Move(1); Line same = line; same.From.X = 3; Console.WriteLine(line.Length()); Console.WriteLine(same.Length());
        Point[] many = new Point[3]; many[1].X = 5; many[1].Move(2); many[2] = many[1]; many[2].Y = 8; Console.WriteLine(many[1].X); Console.WriteLine(many[1].Y); Console.WriteLine(many[2].Y);
        Box<int> ints = new Box<int>(); ints.Put(3); Box<string> strings = new Box<string>(); Console.WriteLine(ints.Take()); Console.WriteLine(ints.Map(strings, "mapped")); new Box<int>();
        Console.WriteLine(Box<int>.Made); Console.WriteLine(Box<string>.Made); Console.WriteLine(Box<Point>.Made);
        IPut<Point> points = new Box<Point>(); points.Put(new Point(7, 7)); Console.WriteLine(points.Take().ToString());
        Console.WriteLine(Largest(new string[] { "a", "b" }, strings)); Console.WriteLine(strings.Take()); Console.WriteLine(Largest(new int[0], ints));
        int x = 1, y = 2; Swap(ref x, ref y); Console.WriteLine(x); string e = "e", f = "f"; Swap(ref e, ref f); Console.WriteLine(e); Swap(ref many[0], ref many[2]); Console.WriteLine(many[0].Y);
        Console.WriteLine(IsNull<string>(null)); Console.WriteLine(IsNull(5)); Fill(out x); Console.WriteLine(x); Console.WriteLine(Sum(1, 2, 3)); Console.WriteLine(Sum(new int[0]));
        Console.WriteLine(Kind(1)); Console.WriteLine(Kind("")); Console.WriteLine(Kind(q)); Console.WriteLine(Kind(many)); Console.WriteLine(Kind(Color.Blue)); Console.WriteLine(Kind(null)); Console.WriteLine(Kind(1L));
        Console.WriteLine((int)Color.Blue); Color c = (Color)5; Console.WriteLine(c == Color.Green);
        Pairs<string, int> pairs = new Pairs<string, int>(); pairs.Keys[0] = "k"; pairs[0] = 6; pairs[0] += 4; Console.WriteLine(pairs[0]); Console.WriteLine(pairs.Keys[1] == null);
        long[] longs = { 1, -2, 1L << 50 }; byte[] bytes = { 255, 1 }; sbyte[] signed = { -1 }; char[] chars = { 'a', 'z' }; bool[] flags = { true, false }; short[] shorts = { -7 }; ushort[] us = { 65535 }; uint[] ui = { 4000000000 }; ulong[] ul = { 1 };
        bytes[0]++; Console.WriteLine(longs[2]); Console.WriteLine(longs[1]); Console.WriteLine(bytes[0]); Console.WriteLine(signed[0]); Console.WriteLine(chars[1]); Console.WriteLine(flags[0]); Console.WriteLine(shorts[0]); Console.WriteLine(us[0]); Console.WriteLine((long)ui[0]); Console.WriteLine((long)ul[0]);
        int[][] jagged = new int[2][]; jagged[1] = new int[] { 4, 5 }; jagged[1][0] *= 3; Console.WriteLine(jagged[1][0]); Console.WriteLine(jagged[0] == null); Console.WriteLine(longs.Length);
        object[] objects = new string[] { "covariant" }; Console.WriteLine(objects[0]); Console.WriteLine(objects is string[]); IShape[] shapes = new Square[1]; Console.WriteLine(shapes is object[]);
        Node<int> list = null; for (int n = 0; n < 4; n++) { Node<int> head = new Node<int>(); head.Value = n; head.Next = list; list = head; }
        int total = 0; for (Node<int> at = list; at != null; at = at.Next) total = total * 10 + at.Value; Console.WriteLine(total);
        Bare bare = new Bare(); object o1 = bare; bare.N = 1; Console.WriteLine(((Bare)o1).N); Console.WriteLine(new Bare().N);
        using (IDisposable d = new Closes()) { Console.WriteLine("open"); }
        Console.WriteLine((q as ISquare) == null); Console.WriteLine((r as ISquare) == null);
    }
}

class Closes : IDisposable { public void Dispose() { Console.WriteLine("closed"); } }
