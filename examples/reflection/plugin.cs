// `Type.GetType` of a text keeps the type that it finds, and a call of `Activator.CreateInstance` with it the constructor. A call by
// way of an interface of the library keeps the method that answers. What nothing names goes, in both files: types of the
// library, another plugin, methods of the interface that nothing calls, with what answers them.
using System;

namespace Plugins
{
    class Hello : IPlugin
    {
        public Hello() { }
        public Hello(string name) { }
        public string Run() { return "hello from the plugin"; }
        public string Unused() { return "unused"; }
    }

    class Seen
    {
        public Seen() { }
        public void Unused() { }
    }

    class Goodbye : IPlugin
    {
        public string Run() { return "goodbye"; }
        public string Unused() { return "unused"; }
    }
}

static class Program
{
    static void Main()
    {
        IPlugin plugin = (IPlugin)Activator.CreateInstance(Type.GetType("Plugins.Hello"));
        Console.WriteLine(plugin.Run());
        Console.WriteLine(Type.GetType("Plugins.Seen") == null);
        Console.WriteLine(Type.GetType("Plugins.Nowhere") == null);
    }
}
