// examples/host.dll is this library as mcs compiles it: mcs -optimize+ -target:library -out:host.dll host.cs
using System;

public interface IPlugin
{
    string Run();
}

public abstract class Named : IPlugin
{
    protected string name = "nameless";
    public abstract string Run();
}

// A program that takes no plugins needs none of these.
public class Unused
{
    public string Text() { return "unused"; }
}
