// The constraint of a kept method's type parameter isn't there (II.22.21): the place is the constraint's row.
.assembly extern mscorlib { .ver 4:0:0:0 }
.assembly extern Missing { }
.assembly flaw_constraint { .ver 1:0:0:0 }
.module flaw_constraint.exe

.class private auto ansi Program extends [mscorlib]System.Object
{
  .method private static void Main() cil managed
  {
    .entrypoint
    .maxstack 8
    call void Program::Call<string>()
    ret
  }
  .method private static void Call<(Program, [Missing]Type) T>() cil managed
  {
    .maxstack 8
    ret
  }
}
