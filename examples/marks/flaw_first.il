// Of several flaws the first is named: by the place's assembly, token and offset. Here the type 02000003 has one, then Main at an
// instruction, then the method that it calls.
.assembly extern mscorlib { .ver 4:0:0:0 }
.assembly flaw_first { .ver 1:0:0:0 }
.module flaw_first.exe

.class private auto ansi Program extends [mscorlib]System.Object
{
  .method private static void Main() cil managed
  {
    .entrypoint
    .maxstack 8
    call void Program::Call()
    ldnull
    isinst Derived
    pop
    call void [mscorlib]System.NoSuchClass::Call()
    ret
  }
  .method private static void Call() cil managed
  {
    .maxstack 8
    ldc.r8 1.5
    pop
    ret
  }
}

.class private auto ansi Derived extends [mscorlib]System.NoSuchClass { }
