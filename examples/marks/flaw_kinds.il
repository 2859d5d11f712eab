// The member kinds of a kept DynamicDependency have a bit beyond 3fff, and aren't all bits: the place is the attribute's row.
.assembly extern mscorlib { .ver 4:0:0:0 }
.assembly flaw_kinds { .ver 1:0:0:0 }
.module flaw_kinds.exe

.class private auto ansi Program extends [mscorlib]System.Object
{
  .method private static void Main() cil managed
  {
    .entrypoint
    .custom instance void [mscorlib]System.Diagnostics.CodeAnalysis.DynamicDependencyAttribute::.ctor(
      valuetype [mscorlib]System.Diagnostics.CodeAnalysis.DynamicallyAccessedMemberTypes, class [mscorlib]System.Type) = (
      01 00 00 40 00 00 07 50 72 6f 67 72 61 6d 00 00 )
    .maxstack 8
    ret
  }
}
