// The type of a kept property isn't there (II.22.34): the place is its row.
.assembly extern mscorlib { .ver 4:0:0:0 }
.assembly extern Missing { }
.assembly flaw_property { .ver 1:0:0:0 }
.module flaw_property.exe

.class private auto ansi Program extends [mscorlib]System.Object
{
  .method private static void Main() cil managed
  {
    .entrypoint
    .maxstack 8
    call int32 Program::get_Number()
    pop
    ret
  }
  .method private static int32 get_Number() cil managed
  {
    .maxstack 8
    ldc.i4.1
    ret
  }
  .property class [Missing]Type Number()
  {
    .get int32 Program::get_Number()
  }
}
