// A kept method of an interface is static, or has a body (II.12.1).
.assembly extern mscorlib { .ver 4:0:0:0 }
.assembly flaw_interface_body { .ver 1:0:0:0 }
.module flaw_interface_body.exe

.class private auto ansi Program extends [mscorlib]System.Object
{
  .method private static void Main() cil managed
  {
    .entrypoint
    .maxstack 8
    call void IHelper::Help()
    ret
  }
}

.class interface private abstract auto ansi IHelper
{
  .method public static void Help() cil managed
  {
    .maxstack 8
    ret
  }
}
