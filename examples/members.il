// examples/members.exe is this program as mono's ilasm assembles it: ilasm members.il
// Members of the core library that C# can't call, or not so: those of two exceptions, Finalize, what InitializeArray refuses, and the
// console between lines; and two instructions where mono does otherwise. members.out is written by hand.
.assembly extern mscorlib {}
.assembly members {}
.module members.exe

.class sealed Small extends [mscorlib]System.Enum
{
  .field public specialname rtspecialname int16 value__
}

.class sequential sealed Pair extends [mscorlib]System.ValueType
{
  .field public int32 Left
  .field public int32 Right
}

.class explicit sealed Nine extends [mscorlib]System.ValueType { .pack 1 .size 9 }

.class Members extends [mscorlib]System.Object
{
  .field static valuetype Nine Bytes at data
  .field static int32 Plain

  .method static void s(string x) { ldarg.0 call void [mscorlib]System.Console::WriteLine(string) ret }
  .method static void n(int32 x) { ldarg.0 call void [mscorlib]System.Console::WriteLine(int32) ret }

  // the messages of an exception, and the message of its inner one
  .method static void tell(class [mscorlib]System.Exception e)
  {
    ldarg.0 callvirt instance string [mscorlib]System.Exception::get_Message() call void Members::s(string)
    ldarg.0 callvirt instance class [mscorlib]System.Exception [mscorlib]System.Exception::get_InnerException()
    dup brfalse.s none
    callvirt instance string [mscorlib]System.Exception::get_Message() call void Members::s(string)
    ret
    none: pop ret
  }

  .method static void messages()
  {
    newobj instance void [mscorlib]System.TypeInitializationException::.ctor() call void Members::tell(class [mscorlib]System.Exception)
    ldstr "own" newobj instance void [mscorlib]System.TypeInitializationException::.ctor(string) call void Members::tell(class [mscorlib]System.Exception)
    ldstr "outer" ldstr "inner" newobj instance void [mscorlib]System.Exception::.ctor(string)
    newobj instance void [mscorlib]System.TypeInitializationException::.ctor(string, class [mscorlib]System.Exception) call void Members::tell(class [mscorlib]System.Exception)
    newobj instance void [mscorlib]System.Reflection.TargetInvocationException::.ctor() call void Members::tell(class [mscorlib]System.Exception)
    ldstr "own" newobj instance void [mscorlib]System.Reflection.TargetInvocationException::.ctor(string) call void Members::tell(class [mscorlib]System.Exception)
    ldnull newobj instance void [mscorlib]System.ArgumentException::.ctor(string) call void Members::tell(class [mscorlib]System.Exception)
    ldnull newobj instance void [mscorlib]System.ArgumentNullException::.ctor(string) call void Members::tell(class [mscorlib]System.Exception)
    ldstr "n" newobj instance void [mscorlib]System.ArgumentOutOfRangeException::.ctor(string) call void Members::tell(class [mscorlib]System.Exception)
    newobj instance void [mscorlib]System.Object::.ctor() call instance void [mscorlib]System.Object::Finalize()
    ret
  }

  .method static void fill(class [mscorlib]System.Array a)
  {
    .try
    {
      ldarg.0 ldtoken field valuetype Nine Members::Bytes
      call void [mscorlib]System.Runtime.CompilerServices.RuntimeHelpers::InitializeArray(class [mscorlib]System.Array, valuetype [mscorlib]System.RuntimeFieldHandle)
      ldstr "filled" call void Members::s(string) leave.s E
    }
    catch [mscorlib]System.ArgumentException { pop ldstr "argument" call void Members::s(string) leave.s E }
    catch [mscorlib]System.NullReferenceException { pop ldstr "null" call void Members::s(string) leave.s E }
    E: ret
  }

  .method static void fills()
  {
    .locals init (native int[] a, char[] b, bool[] c, valuetype Small[] d, int32[] e, valuetype [mscorlib]System.RuntimeFieldHandle none)
    ldnull call void Members::fill(class [mscorlib]System.Array)
    ldc.i4.1 newarr [mscorlib]System.String call void Members::fill(class [mscorlib]System.Array)
    ldc.i4.2 newarr [mscorlib]System.Int64 call void Members::fill(class [mscorlib]System.Array)
    ldc.i4.1 newarr [mscorlib]System.IntPtr stloc.0 ldloc.0 call void Members::fill(class [mscorlib]System.Array)
    ldloc.0 ldc.i4.0 ldelem.i conv.i8 call void [mscorlib]System.Console::WriteLine(int64)
    ldc.i4.4 newarr [mscorlib]System.Char stloc.1 ldloc.1 call void Members::fill(class [mscorlib]System.Array)
    ldloc.1 ldc.i4.1 ldelem.u2 call void Members::n(int32)
    ldc.i4.s 9 newarr [mscorlib]System.Boolean stloc.2 ldloc.2 call void Members::fill(class [mscorlib]System.Array)
    ldloc.2 ldc.i4.8 ldelem.u1 call void Members::n(int32)
    ldc.i4.3 newarr Small stloc.3 ldloc.3 call void Members::fill(class [mscorlib]System.Array)
    ldloc.3 ldc.i4.2 ldelem.i2 call void Members::n(int32)
    ldc.i4.3 newarr [mscorlib]System.Int32 stloc.s e ldloc.s e call void Members::fill(class [mscorlib]System.Array)
    ldloc.s e ldc.i4.0 ldelem.i4 call void Members::n(int32)
    // the zero handle; a field without bytes
    .try { ldloc.s e ldloc.s none call void [mscorlib]System.Runtime.CompilerServices.RuntimeHelpers::InitializeArray(class [mscorlib]System.Array, valuetype [mscorlib]System.RuntimeFieldHandle) leave.s A } catch [mscorlib]System.ArgumentException { pop ldstr "argument" call void Members::s(string) leave.s A }
    A: .try { ldloc.s e ldtoken field int32 Members::Plain call void [mscorlib]System.Runtime.CompilerServices.RuntimeHelpers::InitializeArray(class [mscorlib]System.Array, valuetype [mscorlib]System.RuntimeFieldHandle) leave.s B } catch [mscorlib]System.ArgumentException { pop ldstr "argument" call void Members::s(string) leave.s B }
    B: ret
  }

  .method static void line()
  {
    ldstr "[" call void [mscorlib]System.Console::Write(string)
    call string [mscorlib]System.Console::ReadLine() call void [mscorlib]System.Console::Write(string)
    ldstr "]" call void Members::s(string)
    ret
  }

  .method static void units(int32 count)
  {
    again: call int32 [mscorlib]System.Console::Read() call void Members::n(int32)
    ldarg.0 ldc.i4.1 sub starg.s count
    ldarg.0 brtrue.s again
    ret
  }

  // arguments of 8 and 16 bits are cut as they are passed; ldfld of a box goes into it
  .method static void own(int8 a, unsigned int16 b)
  {
    .locals init (valuetype Pair p)
    ldarg.0 call void Members::n(int32)
    ldarg.1 call void Members::n(int32)
    ldloca.s p ldc.i4.s 12 stfld int32 Pair::Right
    ldloc p box Pair ldfld int32 Pair::Right call void Members::n(int32)
    ret
  }

  .method static void Main()
  {
    .entrypoint
    call void Members::messages()
    call void Members::fills()
    call void Members::line()
    ldc.i4.2 call void Members::units(int32)
    call void Members::line()
    call void Members::line()
    ldc.i4.s 9 call void Members::units(int32)
    call void Members::line()
    ldc.i4.1 call void Members::units(int32)
    call void Members::line()
    ldc.i4 200 ldc.i4 70000 call void Members::own(int8, unsigned int16)
    ret
  }
}

.data data = bytearray (01 02 03 04 00 ff 05 80 02)
