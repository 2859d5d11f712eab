// A MethodImpl row whose class and body are kept names a method that isn't there: the place is that row.
.assembly extern mscorlib { .ver 4:0:0:0 }
.assembly extern Missing { }
.assembly flaw_method_row { .ver 1:0:0:0 }
.module flaw_method_row.exe

.class private auto ansi Program extends [mscorlib]System.Object
{
  .method private static void Main() cil managed
  {
    .entrypoint
    .maxstack 8
    ldnull
    callvirt instance void Class::Call()
    ret
  }
}

.class private auto ansi Class extends [mscorlib]System.Object
{
  .method public newslot virtual instance void Call() cil managed
  {
    .override [Missing]IMissing::Call
    .maxstack 8
    ret
  }
}
