// A type in a signature is kept wherever it stands: as an argument of an instance, an element of an array, behind `&` and as a
// modifier (II.23.2). A kept field leads to its owner and its type.
.assembly extern mscorlib { .ver 4:0:0:0 }
.assembly signature_types { .ver 1:0:0:0 }
.module signature_types.exe

.class private auto ansi Program extends [mscorlib]System.Object
{
  .field private static class Box`1<class FieldArgument[]> kept
  .field private static class UnkeptFieldType unkept
  .field private static int32 modreq([mscorlib]System.Runtime.CompilerServices.IsVolatile) counter

  .method private static void Main() cil managed
  {
    .entrypoint
    .maxstack 8
    .locals init (class ByReference V_0, class Box`1<class Box`1<class Deep>>[] V_1)
    ldnull
    stsfld class Box`1<class FieldArgument[]> Program::kept
    ldloca.s V_0
    call int32 modopt(Modifier) Program::Take(class ByReference&)
    call void [mscorlib]System.Console::WriteLine(int32)
    volatile.
    ldsfld int32 modreq([mscorlib]System.Runtime.CompilerServices.IsVolatile) Program::counter
    call void [mscorlib]System.Console::WriteLine(int32)
    ret
  }

  .method private static int32 modopt(Modifier) Take(class ByReference& p) cil managed
  {
    .maxstack 8
    ldc.i4.8
    ret
  }
}

.class private auto ansi Box`1<T> extends [mscorlib]System.Object { }
.class private auto ansi FieldArgument extends [mscorlib]System.Object { }
.class private auto ansi UnkeptFieldType extends [mscorlib]System.Object { }
.class private auto ansi ByReference extends [mscorlib]System.Object { }
.class private auto ansi Modifier extends [mscorlib]System.Object { }
.class private auto ansi Deep extends [mscorlib]System.Object { }
