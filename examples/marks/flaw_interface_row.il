// A DynamicDependency on the interfaces of a type keeps each of its interface rows, and the interface of the first isn't there: the
// place is that row.
.assembly extern mscorlib { .ver 4:0:0:0 }
.assembly extern Missing { }
.assembly flaw_interface_row { .ver 1:0:0:0 }
.module flaw_interface_row.exe

.class private auto ansi Program extends [mscorlib]System.Object
{
  .method private static void Main() cil managed
  {
    .entrypoint
    // DynamicDependency(Interfaces, typeof(Class))
    .custom instance void [mscorlib]System.Diagnostics.CodeAnalysis.DynamicDependencyAttribute::.ctor(
      valuetype [mscorlib]System.Diagnostics.CodeAnalysis.DynamicallyAccessedMemberTypes, class [mscorlib]System.Type) = (
      01 00 00 20 00 00 05 43 6c 61 73 73 00 00 )
    .maxstack 8
    ret
  }
}

.class private auto ansi Class extends [mscorlib]System.Object implements [Missing]IMissing { }
