// Code that is kept has an instruction on floating-point numbers, at offset 0 of Call.
static class Program
{
    static void Main() { Call(); }
    static void Call() { object half = 0.5; }
}
