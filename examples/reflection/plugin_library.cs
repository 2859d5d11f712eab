// The library of plugin.cs.
public interface IPlugin
{
    string Run();
    string Unused();
}

public class Unused
{
    public int Number;
    public int Get() { return Number; }
}

public class UnusedPlugin : IPlugin
{
    public string Run() { return "never"; }
    public string Unused() { return "never"; }
}
