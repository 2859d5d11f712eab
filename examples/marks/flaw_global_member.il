// A kept method is a member of <Module> (II.10.8).
.assembly extern mscorlib { .ver 4:0:0:0 }
.assembly flaw_global_member { .ver 1:0:0:0 }
.module flaw_global_member.exe

.method private static void Global() cil managed
{
  .maxstack 8
  ret
}

.class private auto ansi Program extends [mscorlib]System.Object
{
  .method private static void Main() cil managed
  {
    .entrypoint
    .maxstack 8
    call void Global()
    ret
  }
}
