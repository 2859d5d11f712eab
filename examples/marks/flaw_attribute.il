// The value of a kept attribute whose constructor is an input's can't be read (II.23.3): the text ends too soon. The place is its row.
.assembly extern mscorlib { .ver 4:0:0:0 }
.assembly flaw_attribute { .ver 1:0:0:0 }
.module flaw_attribute.exe

.class private auto ansi Program extends [mscorlib]System.Object
{
  .method private static void Main() cil managed
  {
    .entrypoint
    .custom instance void Note::.ctor(string) = ( 01 00 05 61 62 )
    .maxstack 8
    ret
  }
}

.class private auto ansi Note extends [mscorlib]System.Attribute
{
  .method public specialname rtspecialname instance void .ctor(string text) cil managed
  {
    .maxstack 8
    ldarg.0
    call instance void [mscorlib]System.Attribute::.ctor()
    ret
  }
}
