// A needed body where two branches meet with different depths of the stack is outside the profile: nothing is known of its values.
.assembly extern mscorlib { .ver 4:0:0:0 }
.assembly flaw_stack { .ver 1:0:0:0 }
.module flaw_stack.exe

.class private auto ansi Program extends [mscorlib]System.Object
{
  .method private static void Main() cil managed
  {
    .entrypoint
    .maxstack 8
    call void Program::Meets()
    ret
  }

  // at MEET nothing or one value is there
  .method private static void Meets() cil managed
  {
    .maxstack 8
    ldc.i4.0
    brfalse.s MEET
    ldc.i4.1
  MEET:
    ret
  }

  .method private static void Unneeded() cil managed
  {
    .maxstack 8
    pop
    ret
  }
}
