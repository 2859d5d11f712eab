// See module_name.cs.
[assembly: System.Runtime.CompilerServices.InternalsVisibleTo("module_name")]

static class Other
{
    public static int Twice(int number) { return 2 * number; }
    public static int Unused(int number) { return number; }
}
