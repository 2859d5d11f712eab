// A kept field has a pointer as its type, which no signature here can have: the place is its row.
.assembly extern mscorlib { .ver 4:0:0:0 }
.assembly flaw_signature { .ver 1:0:0:0 }
.module flaw_signature.exe

.class private auto ansi Program extends [mscorlib]System.Object
{
  .method private static void Main() cil managed
  {
    .entrypoint
    .maxstack 8
    .locals init (valuetype Pair V_0)
    ret
  }
}

.class private sequential sealed ansi Pair extends [mscorlib]System.ValueType
{
  .field public int32 number
  .field public int32* pointer
}
