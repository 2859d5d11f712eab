// The base of a kept type isn't there: the place is the type's row.
.assembly extern mscorlib { .ver 4:0:0:0 }
.assembly flaw_base { .ver 1:0:0:0 }
.module flaw_base.exe

.class private auto ansi Program extends [mscorlib]System.Object
{
  .method private static void Main() cil managed
  {
    .entrypoint
    .maxstack 8
    ldnull
    isinst Derived
    pop
    ret
  }
}

.class private auto ansi Derived extends [mscorlib]System.NoSuchClass { }
