// A kept method calls one of an assembly that isn't given: the place is the instruction.
.assembly extern mscorlib { .ver 4:0:0:0 }
.assembly extern Missing { }
.assembly flaw_missing { .ver 1:0:0:0 }
.module flaw_missing.exe

.class private auto ansi Program extends [mscorlib]System.Object
{
  .method private static void Main() cil managed
  {
    .entrypoint
    .maxstack 8
    nop
    call void [Missing]Missing.Type::Call()
    ret
  }
}
