// The bytes of an array's elements are those of a static field of a class that the compiler makes (II.16.3.2), whose type is a struct of
// that size without fields: code that names the field keeps it, the class and the struct, and none of the class's other fields.
using System;

static class Program
{
    static void Main()
    {
        int[] numbers = { 1, 2, 3, 4 };
        int sum = 0;
        for (int k = 0; k < numbers.Length; k++) sum += numbers[k];
        Console.WriteLine(sum);
    }

    static int[] Unused() { return new int[] { 5, 6, 7, 8, 9 }; }
}
