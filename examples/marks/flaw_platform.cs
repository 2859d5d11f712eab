// A kept method is a platform call (II.15.5): the place is its row.
using System.Runtime.InteropServices;

static class Program
{
    static void Main() { getpid(); }
    [DllImport("libc")] static extern int getpid();
}
