// bench/machine.exe is this program as mcs compiles it: mcs -optimize+ -out:machine.exe machine.cs
// It reads what to do and how many times: "arithmetic 1000000".
using System;

abstract class Shape
{
    public abstract int Sides(int more);
}

class Square : Shape
{
    public override int Sides(int more) { return 4 + more; }
}

class Triangle : Shape
{
    public override int Sides(int more) { return 3 + more; }
}

class Node
{
    public int Value;
    public Node Next;
}

struct Point
{
    public int X;
    public int Y;
}

static class Machine
{
    // The three numbers of a round of the loop are added, multiplied and compared.
    static int Arithmetic(int count)
    {
        int a = 1, b = 2;
        for (int i = 0; i < count; i++)
        {
            a = a * 31 + i;
            b = b ^ (a >> 3);
        }
        return a + b;
    }

    static int Next(int a) { return a + 1; }

    static int Calls(int count)
    {
        int a = 0;
        for (int i = 0; i < count; i++) a = Next(a);
        return a;
    }

    static int Virtuals(int count)
    {
        Shape even = new Square(), odd = new Triangle();
        int a = 0;
        for (int i = 0; i < count; i++) a = (i & 1) == 0 ? even.Sides(a) : odd.Sides(a);
        return a;
    }

    // Two accesses a round.
    static int Arrays(int count)
    {
        int[] cells = new int[1024];
        for (int i = 0; i < count; i++) cells[i & 1023] = cells[(i + 7) & 1023] + i;
        return cells[5];
    }

    // Two accesses a round.
    static int Fields(int count)
    {
        Node node = new Node();
        for (int i = 0; i < count; i++) node.Value = node.Value + i;
        return node.Value;
    }

    static int Structs(int count)
    {
        Point p = new Point();
        for (int i = 0; i < count; i++)
        {
            Point q = p;
            q.X = q.X + i;
            p = q;
        }
        return p.X;
    }

    static int Texts(int count)
    {
        string s = "";
        int length = 0;
        for (int i = 0; i < count; i++)
        {
            s = string.Concat(s, i.ToString());
            if (s.Length > 100) { length += s.Length; s = ""; }
        }
        return length;
    }

    static int Depth(int count) { return count == 0 ? 0 : 1 + Depth(count - 1); }

    static int Throws(int count)
    {
        int caught = 0;
        for (int i = 0; i < count; i++)
        {
            try { Thrower(i); }
            catch (InvalidOperationException) { caught++; }
        }
        return caught;
    }

    static void Thrower(int i)
    {
        if (i >= 0) throw new InvalidOperationException();
    }

    static int Heap(int count)
    {
        Node all = null;
        for (int i = 0; i < count; i++)
        {
            Node node = new Node();
            node.Value = i;
            node.Next = all;
            all = node;
        }
        return all == null ? 0 : all.Value;
    }

    static int Main()
    {
        string line = Console.ReadLine();
        if (line == null) return 2;
        int space = 0, count = 0;
        while (space < line.Length && line[space] != ' ') space++;
        for (int i = space + 1; i < line.Length; i++) count = count * 10 + (line[i] - '0');
        string what = line.Substring(0, space);
        int result = 0;
        if (what == "arithmetic") result = Arithmetic(count);
        else if (what == "calls") result = Calls(count);
        else if (what == "virtuals") result = Virtuals(count);
        else if (what == "arrays") result = Arrays(count);
        else if (what == "fields") result = Fields(count);
        else if (what == "structs") result = Structs(count);
        else if (what == "texts") result = Texts(count);
        else if (what == "depth") result = Depth(count);
        else if (what == "throws") result = Throws(count);
        else if (what == "heap") result = Heap(count);
        else return 3;
        Console.WriteLine(result);
        return 0;
    }
}
