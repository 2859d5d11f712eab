// An attribute whose constructor isn't an input's is copied without a look at its value: the types that it names aren't kept by it.
using System;
using System.Diagnostics;

class Proxy { public Proxy(Shown shown) { } }

[DebuggerTypeProxy(typeof(Proxy)), DebuggerDisplay("{Text}", Type = "Proxy")]
class Shown
{
    public string Text { get { return "shown"; } }
    public override string ToString() { return Program.Say("a shown one"); }
}

static class Program
{
    internal static string Say(string text) { return text; }

    [Obsolete("for the attribute alone")]
    static void Main() { Console.WriteLine(new Shown()); }
}
