// A kept field has bytes in the file (II.22.18), and its type doesn't say how many: the place is the row in FieldRVA.
.assembly extern mscorlib { .ver 4:0:0:0 }
.assembly flaw_field_data { .ver 1:0:0:0 }
.module flaw_field_data.exe

.class private auto ansi Program extends [mscorlib]System.Object
{
  .field private static int32 number at Bytes
  .field private static object thing at Bytes
  .method private static void Main() cil managed
  {
    .entrypoint
    .maxstack 8
    ldsfld int32 Program::number
    pop
    ldsfld object Program::thing
    pop
    ret
  }
}

.data Bytes = bytearray ( 01 02 03 04 05 06 07 08 )
