// An input's <Module> has an initializer: no type of that input can be kept, and the first input's <Module> is.
.assembly extern mscorlib { .ver 4:0:0:0 }
.assembly flaw_module_initializer { .ver 1:0:0:0 }
.module flaw_module_initializer.exe

.method private static specialname rtspecialname void .cctor() cil managed
{
  .maxstack 8
  ret
}

.class private auto ansi Program extends [mscorlib]System.Object
{
  .method private static void Main() cil managed
  {
    .entrypoint
    .maxstack 8
    ret
  }
}
