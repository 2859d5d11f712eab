// examples/forms.exe is this program as mono's ilasm assembles it: ilasm forms.il
// Instructions that the C# examples lack, by form (III.3, III.4). forms.out is what mono prints.
.assembly extern mscorlib {}
.assembly forms {}
.module forms.exe

.class sequential sealed Pair extends [mscorlib]System.ValueType
{
  .field public int32 Left
  .field public int32 Right
}

.class sealed Small extends [mscorlib]System.Enum
{
  .field public specialname rtspecialname int16 value__
  .field public static literal valuetype Small One = int16(1)
}

.class Holder extends [mscorlib]System.Object
{
  .field public static int32 Count
  .field public static valuetype Pair Last
  .field public static object Any
  .field public valuetype Pair Held
  .method public specialname rtspecialname instance void .ctor() { ldarg.0 call instance void [mscorlib]System.Object::.ctor() ret }
}

.class Forms extends [mscorlib]System.Object
{
  .method static void w(int32 x) { ldarg.0 call void [mscorlib]System.Console::Write(int32) ret }
  .method static void n(int32 x) { ldarg.0 call void [mscorlib]System.Console::WriteLine(int32) ret }
  .method static void l(int64 x) { ldarg.0 call void [mscorlib]System.Console::WriteLine(int64) ret }
  .method static void s(string x) { ldarg.0 call void [mscorlib]System.Console::WriteLine(string) ret }

  // ldarg.3, ldarg.s, ldarg, starg.s, starg, ldarga.s, ldarga: an argument of 8 or 16 bits is cut as it is stored
  .method static void arguments(int32 a, int8 b, unsigned int16 c, int64 d, int32 e)
  {
    ldarg.3 call void Forms::l(int64)
    ldarg.s e call void Forms::n(int32)
    ldarg e call void Forms::n(int32)
    ldarg.1 call void Forms::n(int32)
    ldarg.2 call void Forms::n(int32)
    ldc.i4 200 starg.s b
    ldarg.1 call void Forms::n(int32)
    ldc.i4.m1 starg c
    ldarg.2 call void Forms::n(int32)
    ldarga.s a ldc.i4 70 stind.i4
    ldarg.0 call void Forms::n(int32)
    ldarga a ldind.i4 call void Forms::n(int32)
    ret
  }

  // ldloc, stloc and ldloca with two bytes of operand; a local of 8 bits is cut
  .method static void locals()
  {
    .locals init (int32 a, unsigned int8 b, valuetype Pair p)
    ldc.i4 300 stloc a
    ldloc a call void Forms::n(int32)
    ldc.i4 300 stloc b
    ldloc b call void Forms::n(int32)
    ldloca p ldc.i4.5 stfld int32 Pair::Right
    ldloc p ldfld int32 Pair::Right call void Forms::n(int32)
    ret
  }

  // each branch on two operands, short and long: 1 where it is taken
  .method static void branches(int32 a, int32 b)
  {
    ldarg.0 ldarg.1 beq.s T0 ldc.i4.0 br E0 T0: ldc.i4.1 E0: call void Forms::w(int32)
    ldarg.0 ldarg.1 beq T1 ldc.i4.0 br.s E1 T1: ldc.i4.1 E1: call void Forms::w(int32)
    ldarg.0 ldarg.1 bge.s T2 ldc.i4.0 br E2 T2: ldc.i4.1 E2: call void Forms::w(int32)
    ldarg.0 ldarg.1 bge T3 ldc.i4.0 br.s E3 T3: ldc.i4.1 E3: call void Forms::w(int32)
    ldarg.0 ldarg.1 bgt.s T4 ldc.i4.0 br E4 T4: ldc.i4.1 E4: call void Forms::w(int32)
    ldarg.0 ldarg.1 bgt T5 ldc.i4.0 br.s E5 T5: ldc.i4.1 E5: call void Forms::w(int32)
    ldarg.0 ldarg.1 ble.s T6 ldc.i4.0 br E6 T6: ldc.i4.1 E6: call void Forms::w(int32)
    ldarg.0 ldarg.1 ble T7 ldc.i4.0 br.s E7 T7: ldc.i4.1 E7: call void Forms::w(int32)
    ldarg.0 ldarg.1 blt.s T8 ldc.i4.0 br E8 T8: ldc.i4.1 E8: call void Forms::w(int32)
    ldarg.0 ldarg.1 blt T9 ldc.i4.0 br.s E9 T9: ldc.i4.1 E9: call void Forms::w(int32)
    ldarg.0 ldarg.1 bne.un.s T10 ldc.i4.0 br E10 T10: ldc.i4.1 E10: call void Forms::w(int32)
    ldarg.0 ldarg.1 bne.un T11 ldc.i4.0 br.s E11 T11: ldc.i4.1 E11: call void Forms::w(int32)
    ldarg.0 ldarg.1 bge.un.s T12 ldc.i4.0 br E12 T12: ldc.i4.1 E12: call void Forms::w(int32)
    ldarg.0 ldarg.1 bge.un T13 ldc.i4.0 br.s E13 T13: ldc.i4.1 E13: call void Forms::w(int32)
    ldarg.0 ldarg.1 bgt.un.s T14 ldc.i4.0 br E14 T14: ldc.i4.1 E14: call void Forms::w(int32)
    ldarg.0 ldarg.1 bgt.un T15 ldc.i4.0 br.s E15 T15: ldc.i4.1 E15: call void Forms::w(int32)
    ldarg.0 ldarg.1 ble.un.s T16 ldc.i4.0 br E16 T16: ldc.i4.1 E16: call void Forms::w(int32)
    ldarg.0 ldarg.1 ble.un T17 ldc.i4.0 br.s E17 T17: ldc.i4.1 E17: call void Forms::w(int32)
    ldarg.0 ldarg.1 blt.un.s T18 ldc.i4.0 br E18 T18: ldc.i4.1 E18: call void Forms::w(int32)
    ldarg.0 ldarg.1 blt.un T19 ldc.i4.0 br.s E19 T19: ldc.i4.1 E19: call void Forms::w(int32)
    call void [mscorlib]System.Console::WriteLine()
    ret
  }

  // the same of native integers and of an int32 beside one, which is extended by its sign
  .method static void native_branches(native int a, int32 b)
  {
    ldarg.0 ldarg.1 beq.s T0 ldc.i4.0 br.s E0 T0: ldc.i4.1 E0: call void Forms::w(int32)
    ldarg.0 ldarg.1 bge.s T1 ldc.i4.0 br.s E1 T1: ldc.i4.1 E1: call void Forms::w(int32)
    ldarg.0 ldarg.1 bgt.s T2 ldc.i4.0 br.s E2 T2: ldc.i4.1 E2: call void Forms::w(int32)
    ldarg.0 ldarg.1 ble.s T3 ldc.i4.0 br.s E3 T3: ldc.i4.1 E3: call void Forms::w(int32)
    ldarg.0 ldarg.1 blt.s T4 ldc.i4.0 br.s E4 T4: ldc.i4.1 E4: call void Forms::w(int32)
    ldarg.0 ldarg.1 bne.un.s T5 ldc.i4.0 br.s E5 T5: ldc.i4.1 E5: call void Forms::w(int32)
    ldarg.0 ldarg.1 bge.un.s T6 ldc.i4.0 br.s E6 T6: ldc.i4.1 E6: call void Forms::w(int32)
    ldarg.0 ldarg.1 bgt.un.s T7 ldc.i4.0 br.s E7 T7: ldc.i4.1 E7: call void Forms::w(int32)
    ldarg.0 ldarg.1 ble.un.s T8 ldc.i4.0 br.s E8 T8: ldc.i4.1 E8: call void Forms::w(int32)
    ldarg.0 ldarg.1 blt.un.s T9 ldc.i4.0 br.s E9 T9: ldc.i4.1 E9: call void Forms::w(int32)
    call void [mscorlib]System.Console::WriteLine()
    ret
  }

  // brtrue and brfalse, short and long, of numbers of each kind, references and a pointer
  .method static void truths()
  {
    .locals init (int32 a)
    ldc.i4.0 brtrue.s T0 ldc.i4.0 br.s E0 T0: ldc.i4.1 E0: call void Forms::w(int32)
    ldc.i4.0 brtrue T1 ldc.i4.0 br.s E1 T1: ldc.i4.1 E1: call void Forms::w(int32)
    ldc.i4.0 brfalse.s T2 ldc.i4.0 br.s E2 T2: ldc.i4.1 E2: call void Forms::w(int32)
    ldc.i4.0 brfalse T3 ldc.i4.0 br.s E3 T3: ldc.i4.1 E3: call void Forms::w(int32)
    ldc.i4.7 brtrue.s T4 ldc.i4.0 br.s E4 T4: ldc.i4.1 E4: call void Forms::w(int32)
    ldc.i4.7 brtrue T5 ldc.i4.0 br.s E5 T5: ldc.i4.1 E5: call void Forms::w(int32)
    ldc.i4.7 brfalse.s T6 ldc.i4.0 br.s E6 T6: ldc.i4.1 E6: call void Forms::w(int32)
    ldc.i4.7 brfalse T7 ldc.i4.0 br.s E7 T7: ldc.i4.1 E7: call void Forms::w(int32)
    ldc.i8 0 brtrue.s T8 ldc.i4.0 br.s E8 T8: ldc.i4.1 E8: call void Forms::w(int32)
    ldc.i8 0 brtrue T9 ldc.i4.0 br.s E9 T9: ldc.i4.1 E9: call void Forms::w(int32)
    ldc.i8 0 brfalse.s T10 ldc.i4.0 br.s E10 T10: ldc.i4.1 E10: call void Forms::w(int32)
    ldc.i8 0 brfalse T11 ldc.i4.0 br.s E11 T11: ldc.i4.1 E11: call void Forms::w(int32)
    ldc.i8 0x100000000 brtrue.s T12 ldc.i4.0 br.s E12 T12: ldc.i4.1 E12: call void Forms::w(int32)
    ldc.i8 0x100000000 brtrue T13 ldc.i4.0 br.s E13 T13: ldc.i4.1 E13: call void Forms::w(int32)
    ldc.i8 0x100000000 brfalse.s T14 ldc.i4.0 br.s E14 T14: ldc.i4.1 E14: call void Forms::w(int32)
    ldc.i8 0x100000000 brfalse T15 ldc.i4.0 br.s E15 T15: ldc.i4.1 E15: call void Forms::w(int32)
    ldc.i4.0 conv.i brtrue.s T16 ldc.i4.0 br.s E16 T16: ldc.i4.1 E16: call void Forms::w(int32)
    ldc.i4.0 conv.i brtrue T17 ldc.i4.0 br.s E17 T17: ldc.i4.1 E17: call void Forms::w(int32)
    ldc.i4.0 conv.i brfalse.s T18 ldc.i4.0 br.s E18 T18: ldc.i4.1 E18: call void Forms::w(int32)
    ldc.i4.0 conv.i brfalse T19 ldc.i4.0 br.s E19 T19: ldc.i4.1 E19: call void Forms::w(int32)
    ldc.i4.m1 conv.u brtrue.s T20 ldc.i4.0 br.s E20 T20: ldc.i4.1 E20: call void Forms::w(int32)
    ldc.i4.m1 conv.u brtrue T21 ldc.i4.0 br.s E21 T21: ldc.i4.1 E21: call void Forms::w(int32)
    ldc.i4.m1 conv.u brfalse.s T22 ldc.i4.0 br.s E22 T22: ldc.i4.1 E22: call void Forms::w(int32)
    ldc.i4.m1 conv.u brfalse T23 ldc.i4.0 br.s E23 T23: ldc.i4.1 E23: call void Forms::w(int32)
    ldnull brtrue.s T24 ldc.i4.0 br.s E24 T24: ldc.i4.1 E24: call void Forms::w(int32)
    ldnull brtrue T25 ldc.i4.0 br.s E25 T25: ldc.i4.1 E25: call void Forms::w(int32)
    ldnull brfalse.s T26 ldc.i4.0 br.s E26 T26: ldc.i4.1 E26: call void Forms::w(int32)
    ldnull brfalse T27 ldc.i4.0 br.s E27 T27: ldc.i4.1 E27: call void Forms::w(int32)
    ldstr "x" brtrue.s T28 ldc.i4.0 br.s E28 T28: ldc.i4.1 E28: call void Forms::w(int32)
    ldstr "x" brtrue T29 ldc.i4.0 br.s E29 T29: ldc.i4.1 E29: call void Forms::w(int32)
    ldstr "x" brfalse.s T30 ldc.i4.0 br.s E30 T30: ldc.i4.1 E30: call void Forms::w(int32)
    ldstr "x" brfalse T31 ldc.i4.0 br.s E31 T31: ldc.i4.1 E31: call void Forms::w(int32)
    ldloca.s a brtrue.s T32 ldc.i4.0 br.s E32 T32: ldc.i4.1 E32: call void Forms::w(int32)
    ldloca.s a brtrue T33 ldc.i4.0 br.s E33 T33: ldc.i4.1 E33: call void Forms::w(int32)
    ldloca.s a brfalse.s T34 ldc.i4.0 br.s E34 T34: ldc.i4.1 E34: call void Forms::w(int32)
    ldloca.s a brfalse T35 ldc.i4.0 br.s E35 T35: ldc.i4.1 E35: call void Forms::w(int32)
    call void [mscorlib]System.Console::WriteLine()
    ret
  }

  // comparisons of native integers, references and pointers
  .method static void comparisons()
  {
    .locals init (int32 a, int32 b, string t)
    ldstr "t" stloc t
    ldc.i4.m1 conv.i ldc.i4.1 ceq call void Forms::w(int32) ldc.i4.m1 conv.i ldc.i4.1 cgt call void Forms::w(int32) ldc.i4.m1 conv.i ldc.i4.1 cgt.un call void Forms::w(int32) ldc.i4.m1 conv.i ldc.i4.1 clt call void Forms::w(int32) ldc.i4.m1 conv.i ldc.i4.1 clt.un call void Forms::w(int32)
    ldc.i8 -1 ldc.i8 1 ceq call void Forms::w(int32) ldc.i8 -1 ldc.i8 1 cgt call void Forms::w(int32) ldc.i8 -1 ldc.i8 1 cgt.un call void Forms::w(int32) ldc.i8 -1 ldc.i8 1 clt call void Forms::w(int32) ldc.i8 -1 ldc.i8 1 clt.un call void Forms::w(int32)
    ldloc t ldnull ceq call void Forms::w(int32) ldloc t ldnull cgt.un call void Forms::w(int32)
    ldnull ldloc t cgt.un call void Forms::w(int32)
    ldloc t ldloc t ceq call void Forms::w(int32) ldloc t ldloc t cgt.un call void Forms::w(int32)
    ldloca.s a ldloca.s a ceq call void Forms::w(int32)
    ldloca.s a ldloca.s b ceq call void Forms::w(int32)
    call void [mscorlib]System.Console::WriteLine()
    ret
  }

  // arithmetic on native integers; shift counts that are native; neg and not of each kind; .ovf of 64 bits
  .method static void arithmetic()
  {
    ldc.i4 -17 conv.i ldc.i4.5 add conv.i8 call void Forms::l(int64)
    ldc.i4 -17 conv.i ldc.i4.5 sub conv.i8 call void Forms::l(int64)
    ldc.i4 -17 conv.i ldc.i4.5 mul conv.i8 call void Forms::l(int64)
    ldc.i4 -17 conv.i ldc.i4.5 div conv.i8 call void Forms::l(int64)
    ldc.i4 -17 conv.i ldc.i4.5 rem conv.i8 call void Forms::l(int64)
    ldc.i4 -17 conv.i ldc.i4.5 and conv.i8 call void Forms::l(int64)
    ldc.i4 -17 conv.i ldc.i4.5 or conv.i8 call void Forms::l(int64)
    ldc.i4 -17 conv.i ldc.i4.5 xor conv.i8 call void Forms::l(int64)
    ldc.i4.5 ldc.i4 -17 conv.i div.un conv.i8 call void Forms::l(int64)
    ldc.i4.5 ldc.i4 -17 conv.i rem.un conv.i8 call void Forms::l(int64)
    ldc.i4 -17 ldc.i4.2 conv.i shr call void Forms::n(int32)
    ldc.i4 -17 conv.i ldc.i4.s 60 shr.un conv.i8 call void Forms::l(int64)
    ldc.i4.3 conv.i ldc.i4.s 40 shl conv.i8 call void Forms::l(int64)
    ldc.i4.3 ldc.i4.s 30 shl call void Forms::n(int32)
    ldc.i8 -9 neg call void Forms::l(int64)
    ldc.i8 -9 not call void Forms::l(int64)
    ldc.i4.s 9 conv.i neg conv.i8 call void Forms::l(int64)
    ldc.i4.s 9 conv.i not conv.i8 call void Forms::l(int64)
    ldc.i4 0x80000000 neg call void Forms::n(int32)
    ldc.i8 0x8000000000000000 neg call void Forms::l(int64)
    ldc.i4.s 12 conv.i ldc.i4.5 add.ovf conv.i8 call void Forms::l(int64)
    ldc.i8 12 ldc.i8 5 add.ovf call void Forms::l(int64)
    ldc.i4.s 12 conv.i ldc.i4.5 sub.ovf conv.i8 call void Forms::l(int64)
    ldc.i8 12 ldc.i8 5 sub.ovf call void Forms::l(int64)
    ldc.i4.s 12 conv.i ldc.i4.5 mul.ovf conv.i8 call void Forms::l(int64)
    ldc.i8 12 ldc.i8 5 mul.ovf call void Forms::l(int64)
    ldc.i4.s 12 conv.i ldc.i4.5 add.ovf.un conv.i8 call void Forms::l(int64)
    ldc.i8 12 ldc.i8 5 add.ovf.un call void Forms::l(int64)
    ldc.i4.s 12 conv.i ldc.i4.5 sub.ovf.un conv.i8 call void Forms::l(int64)
    ldc.i8 12 ldc.i8 5 sub.ovf.un call void Forms::l(int64)
    ldc.i4.s 12 conv.i ldc.i4.5 mul.ovf.un conv.i8 call void Forms::l(int64)
    ldc.i8 12 ldc.i8 5 mul.ovf.un call void Forms::l(int64)
    ret
  }

  // each conversion of an int32 and an int64
  .method static void conv_i(int32 x) { ldarg.0 conv.i conv.i8 call void Forms::l(int64) ret }
  .method static void conv_i_8(int64 x) { ldarg.0 conv.i conv.i8 call void Forms::l(int64) ret }
  .method static void conv_u(int32 x) { ldarg.0 conv.u conv.i8 call void Forms::l(int64) ret }
  .method static void conv_u_8(int64 x) { ldarg.0 conv.u conv.i8 call void Forms::l(int64) ret }
  .method static void conv_i1(int32 x) { ldarg.0 conv.i1 call void Forms::n(int32) ret }
  .method static void conv_i1_8(int64 x) { ldarg.0 conv.i1 call void Forms::n(int32) ret }
  .method static void conv_i2(int32 x) { ldarg.0 conv.i2 call void Forms::n(int32) ret }
  .method static void conv_i2_8(int64 x) { ldarg.0 conv.i2 call void Forms::n(int32) ret }
  .method static void conv_i4(int32 x) { ldarg.0 conv.i4 call void Forms::n(int32) ret }
  .method static void conv_i4_8(int64 x) { ldarg.0 conv.i4 call void Forms::n(int32) ret }
  .method static void conv_i8(int32 x) { ldarg.0 conv.i8 conv.i8 call void Forms::l(int64) ret }
  .method static void conv_i8_8(int64 x) { ldarg.0 conv.i8 conv.i8 call void Forms::l(int64) ret }
  .method static void conv_u1(int32 x) { ldarg.0 conv.u1 call void Forms::n(int32) ret }
  .method static void conv_u1_8(int64 x) { ldarg.0 conv.u1 call void Forms::n(int32) ret }
  .method static void conv_u2(int32 x) { ldarg.0 conv.u2 call void Forms::n(int32) ret }
  .method static void conv_u2_8(int64 x) { ldarg.0 conv.u2 call void Forms::n(int32) ret }
  .method static void conv_u4(int32 x) { ldarg.0 conv.u4 call void Forms::n(int32) ret }
  .method static void conv_u4_8(int64 x) { ldarg.0 conv.u4 call void Forms::n(int32) ret }
  .method static void conv_u8(int32 x) { ldarg.0 conv.u8 conv.i8 call void Forms::l(int64) ret }
  .method static void conv_u8_8(int64 x) { ldarg.0 conv.u8 conv.i8 call void Forms::l(int64) ret }
  .method static void conv_ovf_i1(int32 x)
  {
    .try { ldarg.0 conv.ovf.i1 call void Forms::n(int32) leave.s E } catch [mscorlib]System.OverflowException { pop ldstr "overflow" call void Forms::s(string) leave.s E }
    E: ret
  }
  .method static void conv_ovf_i1_8(int64 x)
  {
    .try { ldarg.0 conv.ovf.i1 call void Forms::n(int32) leave.s E } catch [mscorlib]System.OverflowException { pop ldstr "overflow" call void Forms::s(string) leave.s E }
    E: ret
  }
  .method static void conv_ovf_i2(int32 x)
  {
    .try { ldarg.0 conv.ovf.i2 call void Forms::n(int32) leave.s E } catch [mscorlib]System.OverflowException { pop ldstr "overflow" call void Forms::s(string) leave.s E }
    E: ret
  }
  .method static void conv_ovf_i2_8(int64 x)
  {
    .try { ldarg.0 conv.ovf.i2 call void Forms::n(int32) leave.s E } catch [mscorlib]System.OverflowException { pop ldstr "overflow" call void Forms::s(string) leave.s E }
    E: ret
  }
  .method static void conv_ovf_i4(int32 x)
  {
    .try { ldarg.0 conv.ovf.i4 call void Forms::n(int32) leave.s E } catch [mscorlib]System.OverflowException { pop ldstr "overflow" call void Forms::s(string) leave.s E }
    E: ret
  }
  .method static void conv_ovf_i4_8(int64 x)
  {
    .try { ldarg.0 conv.ovf.i4 call void Forms::n(int32) leave.s E } catch [mscorlib]System.OverflowException { pop ldstr "overflow" call void Forms::s(string) leave.s E }
    E: ret
  }
  .method static void conv_ovf_i8(int32 x)
  {
    .try { ldarg.0 conv.ovf.i8 conv.i8 call void Forms::l(int64) leave.s E } catch [mscorlib]System.OverflowException { pop ldstr "overflow" call void Forms::s(string) leave.s E }
    E: ret
  }
  .method static void conv_ovf_i8_8(int64 x)
  {
    .try { ldarg.0 conv.ovf.i8 conv.i8 call void Forms::l(int64) leave.s E } catch [mscorlib]System.OverflowException { pop ldstr "overflow" call void Forms::s(string) leave.s E }
    E: ret
  }
  .method static void conv_ovf_i(int32 x)
  {
    .try { ldarg.0 conv.ovf.i conv.i8 call void Forms::l(int64) leave.s E } catch [mscorlib]System.OverflowException { pop ldstr "overflow" call void Forms::s(string) leave.s E }
    E: ret
  }
  .method static void conv_ovf_i_8(int64 x)
  {
    .try { ldarg.0 conv.ovf.i conv.i8 call void Forms::l(int64) leave.s E } catch [mscorlib]System.OverflowException { pop ldstr "overflow" call void Forms::s(string) leave.s E }
    E: ret
  }
  .method static void conv_ovf_u1(int32 x)
  {
    .try { ldarg.0 conv.ovf.u1 call void Forms::n(int32) leave.s E } catch [mscorlib]System.OverflowException { pop ldstr "overflow" call void Forms::s(string) leave.s E }
    E: ret
  }
  .method static void conv_ovf_u1_8(int64 x)
  {
    .try { ldarg.0 conv.ovf.u1 call void Forms::n(int32) leave.s E } catch [mscorlib]System.OverflowException { pop ldstr "overflow" call void Forms::s(string) leave.s E }
    E: ret
  }
  .method static void conv_ovf_u2(int32 x)
  {
    .try { ldarg.0 conv.ovf.u2 call void Forms::n(int32) leave.s E } catch [mscorlib]System.OverflowException { pop ldstr "overflow" call void Forms::s(string) leave.s E }
    E: ret
  }
  .method static void conv_ovf_u2_8(int64 x)
  {
    .try { ldarg.0 conv.ovf.u2 call void Forms::n(int32) leave.s E } catch [mscorlib]System.OverflowException { pop ldstr "overflow" call void Forms::s(string) leave.s E }
    E: ret
  }
  .method static void conv_ovf_u4(int32 x)
  {
    .try { ldarg.0 conv.ovf.u4 call void Forms::n(int32) leave.s E } catch [mscorlib]System.OverflowException { pop ldstr "overflow" call void Forms::s(string) leave.s E }
    E: ret
  }
  .method static void conv_ovf_u4_8(int64 x)
  {
    .try { ldarg.0 conv.ovf.u4 call void Forms::n(int32) leave.s E } catch [mscorlib]System.OverflowException { pop ldstr "overflow" call void Forms::s(string) leave.s E }
    E: ret
  }
  .method static void conv_ovf_u8(int32 x)
  {
    .try { ldarg.0 conv.ovf.u8 conv.i8 call void Forms::l(int64) leave.s E } catch [mscorlib]System.OverflowException { pop ldstr "overflow" call void Forms::s(string) leave.s E }
    E: ret
  }
  .method static void conv_ovf_u8_8(int64 x)
  {
    .try { ldarg.0 conv.ovf.u8 conv.i8 call void Forms::l(int64) leave.s E } catch [mscorlib]System.OverflowException { pop ldstr "overflow" call void Forms::s(string) leave.s E }
    E: ret
  }
  .method static void conv_ovf_u(int32 x)
  {
    .try { ldarg.0 conv.ovf.u conv.i8 call void Forms::l(int64) leave.s E } catch [mscorlib]System.OverflowException { pop ldstr "overflow" call void Forms::s(string) leave.s E }
    E: ret
  }
  .method static void conv_ovf_u_8(int64 x)
  {
    .try { ldarg.0 conv.ovf.u conv.i8 call void Forms::l(int64) leave.s E } catch [mscorlib]System.OverflowException { pop ldstr "overflow" call void Forms::s(string) leave.s E }
    E: ret
  }
  .method static void conv_ovf_i1_un(int32 x)
  {
    .try { ldarg.0 conv.ovf.i1.un call void Forms::n(int32) leave.s E } catch [mscorlib]System.OverflowException { pop ldstr "overflow" call void Forms::s(string) leave.s E }
    E: ret
  }
  .method static void conv_ovf_i1_un_8(int64 x)
  {
    .try { ldarg.0 conv.ovf.i1.un call void Forms::n(int32) leave.s E } catch [mscorlib]System.OverflowException { pop ldstr "overflow" call void Forms::s(string) leave.s E }
    E: ret
  }
  .method static void conv_ovf_i2_un(int32 x)
  {
    .try { ldarg.0 conv.ovf.i2.un call void Forms::n(int32) leave.s E } catch [mscorlib]System.OverflowException { pop ldstr "overflow" call void Forms::s(string) leave.s E }
    E: ret
  }
  .method static void conv_ovf_i2_un_8(int64 x)
  {
    .try { ldarg.0 conv.ovf.i2.un call void Forms::n(int32) leave.s E } catch [mscorlib]System.OverflowException { pop ldstr "overflow" call void Forms::s(string) leave.s E }
    E: ret
  }
  .method static void conv_ovf_i4_un(int32 x)
  {
    .try { ldarg.0 conv.ovf.i4.un call void Forms::n(int32) leave.s E } catch [mscorlib]System.OverflowException { pop ldstr "overflow" call void Forms::s(string) leave.s E }
    E: ret
  }
  .method static void conv_ovf_i4_un_8(int64 x)
  {
    .try { ldarg.0 conv.ovf.i4.un call void Forms::n(int32) leave.s E } catch [mscorlib]System.OverflowException { pop ldstr "overflow" call void Forms::s(string) leave.s E }
    E: ret
  }
  .method static void conv_ovf_i8_un(int32 x)
  {
    .try { ldarg.0 conv.ovf.i8.un conv.i8 call void Forms::l(int64) leave.s E } catch [mscorlib]System.OverflowException { pop ldstr "overflow" call void Forms::s(string) leave.s E }
    E: ret
  }
  .method static void conv_ovf_i8_un_8(int64 x)
  {
    .try { ldarg.0 conv.ovf.i8.un conv.i8 call void Forms::l(int64) leave.s E } catch [mscorlib]System.OverflowException { pop ldstr "overflow" call void Forms::s(string) leave.s E }
    E: ret
  }
  .method static void conv_ovf_i_un(int32 x)
  {
    .try { ldarg.0 conv.ovf.i.un conv.i8 call void Forms::l(int64) leave.s E } catch [mscorlib]System.OverflowException { pop ldstr "overflow" call void Forms::s(string) leave.s E }
    E: ret
  }
  .method static void conv_ovf_i_un_8(int64 x)
  {
    .try { ldarg.0 conv.ovf.i.un conv.i8 call void Forms::l(int64) leave.s E } catch [mscorlib]System.OverflowException { pop ldstr "overflow" call void Forms::s(string) leave.s E }
    E: ret
  }
  .method static void conv_ovf_u1_un(int32 x)
  {
    .try { ldarg.0 conv.ovf.u1.un call void Forms::n(int32) leave.s E } catch [mscorlib]System.OverflowException { pop ldstr "overflow" call void Forms::s(string) leave.s E }
    E: ret
  }
  .method static void conv_ovf_u1_un_8(int64 x)
  {
    .try { ldarg.0 conv.ovf.u1.un call void Forms::n(int32) leave.s E } catch [mscorlib]System.OverflowException { pop ldstr "overflow" call void Forms::s(string) leave.s E }
    E: ret
  }
  .method static void conv_ovf_u2_un(int32 x)
  {
    .try { ldarg.0 conv.ovf.u2.un call void Forms::n(int32) leave.s E } catch [mscorlib]System.OverflowException { pop ldstr "overflow" call void Forms::s(string) leave.s E }
    E: ret
  }
  .method static void conv_ovf_u2_un_8(int64 x)
  {
    .try { ldarg.0 conv.ovf.u2.un call void Forms::n(int32) leave.s E } catch [mscorlib]System.OverflowException { pop ldstr "overflow" call void Forms::s(string) leave.s E }
    E: ret
  }
  .method static void conv_ovf_u4_un(int32 x)
  {
    .try { ldarg.0 conv.ovf.u4.un call void Forms::n(int32) leave.s E } catch [mscorlib]System.OverflowException { pop ldstr "overflow" call void Forms::s(string) leave.s E }
    E: ret
  }
  .method static void conv_ovf_u4_un_8(int64 x)
  {
    .try { ldarg.0 conv.ovf.u4.un call void Forms::n(int32) leave.s E } catch [mscorlib]System.OverflowException { pop ldstr "overflow" call void Forms::s(string) leave.s E }
    E: ret
  }
  .method static void conv_ovf_u8_un(int32 x)
  {
    .try { ldarg.0 conv.ovf.u8.un conv.i8 call void Forms::l(int64) leave.s E } catch [mscorlib]System.OverflowException { pop ldstr "overflow" call void Forms::s(string) leave.s E }
    E: ret
  }
  .method static void conv_ovf_u8_un_8(int64 x)
  {
    .try { ldarg.0 conv.ovf.u8.un conv.i8 call void Forms::l(int64) leave.s E } catch [mscorlib]System.OverflowException { pop ldstr "overflow" call void Forms::s(string) leave.s E }
    E: ret
  }
  .method static void conv_ovf_u_un(int32 x)
  {
    .try { ldarg.0 conv.ovf.u.un conv.i8 call void Forms::l(int64) leave.s E } catch [mscorlib]System.OverflowException { pop ldstr "overflow" call void Forms::s(string) leave.s E }
    E: ret
  }
  .method static void conv_ovf_u_un_8(int64 x)
  {
    .try { ldarg.0 conv.ovf.u.un conv.i8 call void Forms::l(int64) leave.s E } catch [mscorlib]System.OverflowException { pop ldstr "overflow" call void Forms::s(string) leave.s E }
    E: ret
  }

  .method static void all_of_int32(int32 x)
  {
    ldarg.0 call void Forms::conv_i(int32)
    ldarg.0 call void Forms::conv_u(int32)
    ldarg.0 call void Forms::conv_i1(int32)
    ldarg.0 call void Forms::conv_i2(int32)
    ldarg.0 call void Forms::conv_i4(int32)
    ldarg.0 call void Forms::conv_i8(int32)
    ldarg.0 call void Forms::conv_u1(int32)
    ldarg.0 call void Forms::conv_u2(int32)
    ldarg.0 call void Forms::conv_u4(int32)
    ldarg.0 call void Forms::conv_u8(int32)
    ldarg.0 call void Forms::conv_ovf_i1(int32)
    ldarg.0 call void Forms::conv_ovf_i2(int32)
    ldarg.0 call void Forms::conv_ovf_i4(int32)
    ldarg.0 call void Forms::conv_ovf_i8(int32)
    ldarg.0 call void Forms::conv_ovf_i(int32)
    ldarg.0 call void Forms::conv_ovf_u1(int32)
    ldarg.0 call void Forms::conv_ovf_u2(int32)
    ldarg.0 call void Forms::conv_ovf_u4(int32)
    ldarg.0 call void Forms::conv_ovf_u8(int32)
    ldarg.0 call void Forms::conv_ovf_u(int32)
    ldarg.0 call void Forms::conv_ovf_i1_un(int32)
    ldarg.0 call void Forms::conv_ovf_i2_un(int32)
    ldarg.0 call void Forms::conv_ovf_i4_un(int32)
    ldarg.0 call void Forms::conv_ovf_i8_un(int32)
    ldarg.0 call void Forms::conv_ovf_i_un(int32)
    ldarg.0 call void Forms::conv_ovf_u1_un(int32)
    ldarg.0 call void Forms::conv_ovf_u2_un(int32)
    ldarg.0 call void Forms::conv_ovf_u4_un(int32)
    ldarg.0 call void Forms::conv_ovf_u8_un(int32)
    ldarg.0 call void Forms::conv_ovf_u_un(int32)
    ret
  }

  .method static void all_of_int64(int64 x)
  {
    ldarg.0 call void Forms::conv_i_8(int64)
    ldarg.0 call void Forms::conv_u_8(int64)
    ldarg.0 call void Forms::conv_i1_8(int64)
    ldarg.0 call void Forms::conv_i2_8(int64)
    ldarg.0 call void Forms::conv_i4_8(int64)
    ldarg.0 call void Forms::conv_i8_8(int64)
    ldarg.0 call void Forms::conv_u1_8(int64)
    ldarg.0 call void Forms::conv_u2_8(int64)
    ldarg.0 call void Forms::conv_u4_8(int64)
    ldarg.0 call void Forms::conv_u8_8(int64)
    ldarg.0 call void Forms::conv_ovf_i1_8(int64)
    ldarg.0 call void Forms::conv_ovf_i2_8(int64)
    ldarg.0 call void Forms::conv_ovf_i4_8(int64)
    ldarg.0 call void Forms::conv_ovf_i8_8(int64)
    ldarg.0 call void Forms::conv_ovf_i_8(int64)
    ldarg.0 call void Forms::conv_ovf_u1_8(int64)
    ldarg.0 call void Forms::conv_ovf_u2_8(int64)
    ldarg.0 call void Forms::conv_ovf_u4_8(int64)
    ldarg.0 call void Forms::conv_ovf_u8_8(int64)
    ldarg.0 call void Forms::conv_ovf_u_8(int64)
    ldarg.0 call void Forms::conv_ovf_i1_un_8(int64)
    ldarg.0 call void Forms::conv_ovf_i2_un_8(int64)
    ldarg.0 call void Forms::conv_ovf_i4_un_8(int64)
    ldarg.0 call void Forms::conv_ovf_i8_un_8(int64)
    ldarg.0 call void Forms::conv_ovf_i_un_8(int64)
    ldarg.0 call void Forms::conv_ovf_u1_un_8(int64)
    ldarg.0 call void Forms::conv_ovf_u2_un_8(int64)
    ldarg.0 call void Forms::conv_ovf_u4_un_8(int64)
    ldarg.0 call void Forms::conv_ovf_u8_un_8(int64)
    ldarg.0 call void Forms::conv_ovf_u_un_8(int64)
    ret
  }

  // ldelem.i, stelem.i, and ldelem, stelem with a token; an instruction for integers takes each type of its width
  .method static void elements()
  {
    .locals init (native int[] a, valuetype Small[] e, bool[] f, char[] g, valuetype Pair[] p)
    ldc.i4.2 newarr [mscorlib]System.IntPtr stloc a
    ldloc a ldc.i4.0 ldc.i4.m1 stelem.i
    ldloc a ldc.i4.1 conv.i ldloc a ldc.i4.0 ldelem.i stelem [mscorlib]System.IntPtr
    ldloc a ldc.i4.1 ldelem [mscorlib]System.IntPtr conv.i8 call void Forms::l(int64)
    ldc.i4.1 newarr Small stloc e
    ldloc e ldc.i4.0 ldc.i4 65535 stelem.i2
    ldloc e ldc.i4.0 ldelem.i2 call void Forms::n(int32)
    ldloc e ldc.i4.0 ldelem.u2 call void Forms::n(int32)
    ldloc e ldc.i4.0 ldelem Small call void Forms::n(int32)
    ldc.i4.1 newarr [mscorlib]System.Boolean stloc f
    ldloc f ldc.i4.0 ldc.i4 255 stelem.i1
    ldloc f ldc.i4.0 ldelem.u1 call void Forms::n(int32)
    ldloc f ldc.i4.0 ldelem.i1 call void Forms::n(int32)
    ldc.i4.1 newarr [mscorlib]System.Char stloc g
    ldloc g ldc.i4.0 ldc.i4.m1 stelem [mscorlib]System.Char
    ldloc g ldc.i4.0 ldelem.i2 call void Forms::n(int32)
    ldc.i4.2 newarr Pair stloc p
    ldloc p ldc.i4.0 ldelema Pair ldc.i4.8 stfld int32 Pair::Left
    ldloc p ldc.i4.1 ldloc p ldc.i4.0 ldelem Pair stelem Pair
    ldloc p ldc.i4.0 ldelema Pair ldc.i4.0 stfld int32 Pair::Left
    ldloc p ldc.i4.1 ldelema Pair ldfld int32 Pair::Left call void Forms::n(int32)
    ldloc p ldlen conv.i4 call void Forms::n(int32)
    ret
  }

  // ldind and stind of each type, ldobj, stobj, cpobj and initobj, through locals, elements, fields, statics and boxes
  .method static void indirect()
  {
    .locals init (int8 a, int16 b, unsigned int16 c, unsigned int32 d, int64 e, native int f, string g, valuetype Pair p, valuetype Pair q, class Holder h, object o)
    ldloca.s a ldc.i4 200 stind.i1 ldloca.s a ldind.i1 call void Forms::n(int32) ldloca.s a ldind.u1 call void Forms::n(int32)
    ldloca.s b ldc.i4 40000 stind.i2 ldloca.s b ldind.i2 call void Forms::n(int32) ldloca.s b ldind.u2 call void Forms::n(int32)
    ldloca.s c ldc.i4.m1 stind.i2 ldloca.s c ldind.u2 call void Forms::n(int32) ldloca.s c ldind.i2 call void Forms::n(int32)
    ldloca.s d ldc.i4.m1 stind.i4 ldloca.s d ldind.u4 conv.u8 call void Forms::l(int64) ldloca.s d ldind.i4 call void Forms::n(int32)
    ldloca.s e ldc.i8 -5 stind.i8 ldloca.s e ldind.i8 call void Forms::l(int64)
    ldloca.s f ldc.i4.m1 stind.i ldloca.s f ldind.i conv.i8 call void Forms::l(int64)
    ldloca.s g ldstr "through a pointer" stind.ref ldloca.s g ldind.ref call void Forms::s(string)
    ldloca.s d ldc.i4.s 9 stobj [mscorlib]System.Int32 ldloca.s d ldobj [mscorlib]System.UInt32 call void Forms::n(int32)
    ldsflda int32 Holder::Count ldc.i4.6 stind.i4 ldsfld int32 Holder::Count call void Forms::n(int32)
    ldsflda int32 Holder::Count ldind.i4 call void Forms::n(int32)
    ldloca.s p ldc.i4.3 stfld int32 Pair::Left
    ldsflda valuetype Pair Holder::Last ldloca.s p cpobj Pair
    ldloca.s p initobj Pair
    ldloca.s p ldfld int32 Pair::Left call void Forms::n(int32)
    ldsfld valuetype Pair Holder::Last ldfld int32 Pair::Left call void Forms::n(int32)
    ldloca.s q ldsfld valuetype Pair Holder::Last stobj Pair
    ldsflda valuetype Pair Holder::Last initobj Pair
    ldloca.s q ldobj Pair ldfld int32 Pair::Left call void Forms::n(int32)
    newobj instance void Holder::.ctor() stloc h
    ldloc h ldflda valuetype Pair Holder::Held ldloc q stobj Pair
    ldloc h ldflda valuetype Pair Holder::Held ldflda int32 Pair::Left ldind.i4 call void Forms::n(int32)
    ldsflda object Holder::Any ldloc h stind.ref ldsflda object Holder::Any ldind.ref ldloc h ceq call void Forms::n(int32)
    // unbox gives a pointer into the box, which two references share
    ldc.i4.7 box [mscorlib]System.Int32 dup stloc o
    unbox [mscorlib]System.Int32 ldc.i4.s 11 stind.i4
    ldloc o unbox.any [mscorlib]System.Int32 call void Forms::n(int32)
    ldloc q box Pair dup stloc o
    unbox Pair ldc.i4.s 12 stfld int32 Pair::Left
    ldloc o unbox Pair ldfld int32 Pair::Left call void Forms::n(int32)
    ldloc q ldfld int32 Pair::Left call void Forms::n(int32)
    // a static field through an object, which is dropped
    ldnull ldfld int32 Holder::Count call void Forms::n(int32)
    ldloc h ldc.i4.s 13 stfld int32 Holder::Count ldsfld int32 Holder::Count call void Forms::n(int32)
    ret
  }

  // handles are loaded and dropped; volatile. and readonly. change nothing here
  .method static void handles()
  {
    .locals init (string[] a)
    ldtoken Forms pop ldtoken field int32 Holder::Count pop ldtoken [mscorlib]System.String pop
    volatile. ldsfld int32 Holder::Count call void Forms::n(int32)
    ldc.i4.1 newarr [mscorlib]System.String stloc a
    ldloc a ldc.i4.0 readonly. ldelema [mscorlib]System.Object ldind.ref ldnull ceq call void Forms::n(int32)
    nop
    ret
  }

  // a fault handler runs where an exception leaves its try block, and not where a leave does
  .method static void faults(int32 x)
  {
    .try
    {
      .try
      {
        ldarg.0 brfalse.s quiet
        newobj instance void [mscorlib]System.Exception::.ctor() throw
        quiet: ldstr "no fault" call void Forms::s(string) leave.s E
      }
      fault { ldstr "fault" call void Forms::s(string) endfinally }
    }
    catch [mscorlib]System.Exception { pop ldstr "caught" call void Forms::s(string) leave.s E }
    E: ret
  }

  // a leave goes through two finally handlers, inner one first, each once
  .method static void leaves()
  {
    .try
    {
      .try { ldstr "body" call void Forms::s(string) leave E }
      finally { ldstr "inner" call void Forms::s(string) endfinally }
    }
    finally { ldstr "outer" call void Forms::s(string) endfinally }
    ldstr "not reached" call void Forms::s(string)
    E: ldstr "end" call void Forms::s(string)
    ret
  }

  // the least number by -1
  .method static void least()
  {
    .try { ldc.i4 0x80000000 ldc.i4.m1 rem call void Forms::n(int32) leave.s A } catch [mscorlib]System.OverflowException { pop ldstr "overflow" call void Forms::s(string) leave.s A }
    A: .try { ldc.i8 0x8000000000000000 ldc.i8 -1 rem call void Forms::l(int64) leave.s B } catch [mscorlib]System.OverflowException { pop ldstr "overflow" call void Forms::s(string) leave.s B }
    B: .try { ldc.i8 0x8000000000000000 ldc.i8 -1 div call void Forms::l(int64) leave.s C } catch [mscorlib]System.OverflowException { pop ldstr "overflow" call void Forms::s(string) leave.s C }
    C: ret
  }

  .method static int32 Main()
  {
    .entrypoint
    ldc.i4.1 ldc.i4.s 100 ldc.i4 60000 ldc.i8 4000000000 ldc.i4.5 call void Forms::arguments(int32, int8, unsigned int16, int64, int32)
    call void Forms::locals()
    ldc.i4.1 ldc.i4.2 call void Forms::branches(int32, int32)
    ldc.i4.2 ldc.i4.2 call void Forms::branches(int32, int32)
    ldc.i4.m1 ldc.i4.1 call void Forms::branches(int32, int32)
    ldc.i4.m1 conv.i ldc.i4.1 call void Forms::native_branches(native int, int32)
    ldc.i4.1 conv.i ldc.i4.m1 call void Forms::native_branches(native int, int32)
    ldc.i4.m1 conv.i ldc.i4.m1 call void Forms::native_branches(native int, int32)
    call void Forms::truths()
    call void Forms::comparisons()
    call void Forms::arithmetic()
    ldc.i4.m1 call void Forms::all_of_int32(int32)
    ldc.i4 40000 call void Forms::all_of_int32(int32)
    ldc.i4.s 100 call void Forms::all_of_int32(int32)
    ldc.i8 -1 call void Forms::all_of_int64(int64)
    ldc.i8 3000000000 call void Forms::all_of_int64(int64)
    ldc.i8 0x8000000000000000 call void Forms::all_of_int64(int64)
    call void Forms::elements()
    call void Forms::indirect()
    call void Forms::handles()
    ldc.i4.0 call void Forms::faults(int32)
    ldc.i4.1 call void Forms::faults(int32)
    call void Forms::leaves()
    call void Forms::least()
    ldc.i4.s 34
    ret
  }
}
