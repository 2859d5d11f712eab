public static class Searching
{
    public static object Find() { return typeof(Found).GetMethod("Run"); }
}

public class Found
{
    public static void Run() { System.Console.WriteLine("run"); }
}
