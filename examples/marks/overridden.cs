// A kept method keeps the one that it overrides (II.10.3). A method with `newslot` (C#'s `new virtual`) overrides nothing by its name:
// the descriptor's Last.Call keeps Middle.Call, which it overrides, and Middle.Call doesn't need First.Call, which Main calls by itself.
// Without the descriptor (overridden_plain) neither is kept, since no call leads there.
using System;

class First { public virtual void Call() { Console.WriteLine("first"); } }
class Middle : First { public new virtual void Call() { Console.WriteLine("middle"); } }
class Last : Middle { public override void Call() { Console.WriteLine("last"); } }

static class Program
{
    static void Main()
    {
        First thing = new Last();
        thing.Call();
    }
}
