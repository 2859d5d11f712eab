// The library of descriptor_assembly.cs.
using System;

public class Answer : IAnswer
{
    int unused;
    public int Number() { return 42; }
    public class Nested { static void Unused() { } }
}

public interface IAnswer { int Number(); }

enum Unused { One }
