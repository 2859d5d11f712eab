// A method leads to all that its row and its code name: the types of its signature, its locals (used or not), the types it catches,
// and each operand, also behind a `ret` and in code that no branch leads to; of an operand the owner and all type arguments too, and
// the type of `constrained.` and of `ldtoken` (II.22.26, II.22.36, III.1.2). A type that is named so keeps no members by that.
.assembly extern mscorlib { .ver 4:0:0:0 }
.assembly body_operands { .ver 1:0:0:0 }
.module body_operands.exe

.class private auto ansi Program extends [mscorlib]System.Object
{
  .method private static void Main() cil managed
  {
    .entrypoint
    .maxstack 8
    .locals init (class LocalType V_0, valuetype Number V_1, class Box`1<class LocalArgument> V_2)
    .try
    {
      ldnull
      call class ReturnType Program::Signature(class ParameterType)
      pop
      ldtoken TokenType
      pop
      ldnull
      isinst CastType
      pop
      ldc.i4.0
      newarr ElementType
      pop
      newobj instance void class Box`1<class Box`1<class ArgumentType>>::.ctor()
      pop
      call void Program::Generic<class MethodArgument>()
      ldsfld int32 FieldOwner::Used
      call void [mscorlib]System.Console::WriteLine(int32)
      ldloca.s V_1
      constrained. Number
      callvirt instance string [mscorlib]System.Object::ToString()
      call void [mscorlib]System.Console::WriteLine(string)
      leave.s END
    }
    catch CaughtType
    {
      pop
      leave.s END
    }
    END: ret
    call void Unreached::Call()
    ret
  }

  .method private static class ReturnType Signature(class ParameterType p) cil managed
  {
    .maxstack 8
    ldnull
    ret
  }

  .method private static void Generic<T>() cil managed
  {
    .maxstack 8
    ret
  }
}

.class private auto ansi LocalType extends [mscorlib]System.Object { .field public int32 Unused }
.class private auto ansi LocalArgument extends [mscorlib]System.Object { }
.class private auto ansi ReturnType extends [mscorlib]System.Object { .field public int32 Unused }
.class private auto ansi ParameterType extends [mscorlib]System.Object { .field public int32 Unused }
.class private auto ansi TokenType extends [mscorlib]System.Object { .field public int32 Unused }
.class private auto ansi CastType extends [mscorlib]System.Object { .field public int32 Unused }
.class private auto ansi ElementType extends [mscorlib]System.Object { .field public int32 Unused }
.class private auto ansi ArgumentType extends [mscorlib]System.Object { .field public int32 Unused }
.class private auto ansi MethodArgument extends [mscorlib]System.Object { .field public int32 Unused }
.class private auto ansi CaughtType extends [mscorlib]System.Exception { .field public int32 Unused }

.class private auto ansi FieldOwner extends [mscorlib]System.Object
{
  .field public static int32 Used
  .field public static int32 Unused
}

.class private auto ansi Box`1<T> extends [mscorlib]System.Object
{
  .method public specialname rtspecialname instance void .ctor() cil managed
  {
    .maxstack 8
    ldarg.0
    call instance void [mscorlib]System.Object::.ctor()
    ret
  }
}

.class private sequential sealed ansi Number extends [mscorlib]System.ValueType
{
  .field public int32 Value
  .method public virtual hidebysig instance string ToString() cil managed
  {
    .maxstack 8
    ldstr "a number"
    ret
  }
}

.class private auto ansi Unreached extends [mscorlib]System.Object
{
  .method public static void Call() cil managed
  {
    .maxstack 8
    ret
  }
}

.class private auto ansi Unnamed extends [mscorlib]System.Object { }
