// A program with its library, parts.dll, and a descriptor, tables.xml: what a trim leaves of their rows is in tables.rows.
.assembly extern mscorlib { .ver 4:0:0:0 .publickeytoken = (B7 7A 5C 56 19 34 E0 89) }
.assembly extern parts { .ver 2:1:0:0 }
.assembly extern ghost { .ver 1:0:0:0 .publickeytoken = (01 02 03 04 05 06 07 08) .hash = (0A 0B) }
.assembly tables
{
  .hash algorithm 0x00008004
  .ver 1:2:3:4
  .publickey = (00 24 00 00 04 80 00 00)
  .custom instance void [mscorlib]System.Reflection.AssemblyTitleAttribute::.ctor(string) = (01 00 01 74 00 00)
  .custom instance void [parts]Parts.NoteAttribute::.ctor(string) = (01 00 01 61 00 00)
}
.module tables.exe
.custom instance void [parts]Parts.NoteAttribute::.ctor(string) = (01 00 01 6D 00 00)

// Nothing makes one.
.class private auto ansi beforefieldinit Tables.Plate extends [parts]Parts.Part
{
  .method public hidebysig specialname rtspecialname instance void .ctor() cil managed
  {
    ldarg.0
    ldstr "plate"
    call instance void [parts]Parts.Part::.ctor(string)
    ret
  }
  .method public hidebysig specialname virtual instance int32 get_Units() cil managed
  {
    ldc.i4.3
    ret
  }
}

.class private auto ansi beforefieldinit Tables.Screw extends [parts]Parts.Part implements Tables.IScaled
{
  .custom instance void [ghost]Ghost.MarkAttribute::.ctor(int32) = (01 00 07 00 00 00 00 00)
  .custom instance void [ghost]Ghost.MarkAttribute::.ctor(valuetype [parts]Parts.Kind) = (01 00 01 00 00 00 00 00)
  .method public hidebysig specialname rtspecialname instance void .ctor() cil managed
  {
    ldarg.0
    ldstr "screw"
    call instance void [parts]Parts.Part::.ctor(string)
    ret
  }
  .method public hidebysig specialname virtual instance int32 get_Units() cil managed
  {
    .custom instance void [parts]Parts.NoteAttribute::.ctor(string) = (01 00 01 75 00 00)
    ldc.i4.s 9
    ret
  }
  .method private hidebysig newslot specialname virtual final instance int32 Tables.IScaled.get_Scale() cil managed
  {
    .override Tables.IScaled::get_Scale
    ldc.i4.7
    ret
  }
  .method public hidebysig instance void Turn(int32 by) cil managed { ret }
  .property instance int32 Units() { .get instance int32 Tables.Screw::get_Units() }
}

// The library has a class of this name too.
.class private abstract auto ansi sealed Texts extends [mscorlib]System.Object
{
  .method assembly hidebysig static void Show(string text) cil managed
  {
    .custom instance void [ghost]Ghost.Outer/MarkAttribute::.ctor() = (01 00 00 00)
    .custom instance void class [ghost]Ghost.Of`1<string>::.ctor() = (01 00 00 00)
    .param [1] = nullref
    ldarg.0
    call void [mscorlib]System.Console::WriteLine(string)
    ret
  }
}

.class interface private abstract auto ansi Tables.IScaled
{
  .method public hidebysig newslot specialname abstract virtual instance int32 get_Scale() cil managed { }
  .property instance int32 Scale() { .get instance int32 Tables.IScaled::get_Scale() }
}

.class private auto ansi sealed Tables.Mode extends [mscorlib]System.Enum
{
  .field public specialname rtspecialname int32 value__
  .field public static literal valuetype Tables.Mode Off = int32(0)
  .field public static literal valuetype Tables.Mode On = int32(1)
}

.class private auto ansi beforefieldinit Tables.Ring`1<.ctor ([parts]Parts.Part) T> extends [mscorlib]System.Object
{
  .field private !0 last
  .method public hidebysig static !0 Turn(!0 item) cil managed
  {
    ldarg.0
    ret
  }
  .method public hidebysig static !0 Back(!0 item) cil managed
  {
    ldarg.0
    ret
  }
}

.class private auto ansi beforefieldinit Tables.Gong extends [mscorlib]System.Object
{
  .method public hidebysig specialname static void add_Struck(class [parts]Parts.Listener 'value') cil managed
  {
    .locals init (valuetype Tables.Mode mode)
    ldc.i4.1
    stloc.0
    ret
  }
  .method public hidebysig specialname static void remove_Struck(class [parts]Parts.Listener 'value') cil managed { ret }
  .event [parts]Parts.Listener Struck
  {
    .addon void Tables.Gong::add_Struck(class [parts]Parts.Listener)
    .removeon void Tables.Gong::remove_Struck(class [parts]Parts.Listener)
  }
}

.class private abstract auto ansi sealed Tables.Program extends [mscorlib]System.Object
{
  .field private static int64 big at D_Big
  .field private static int64 other at D_Other
  .data D_Other = int64(5)
  .data D_Big = int64(4294967297)
  .class nested private sequential ansi sealed Box extends [mscorlib]System.ValueType
  {
    .pack 2
    .size 24
    .field public valuetype [parts]Parts.Pair pair
    .field public static string unused
  }
  .class nested private auto ansi Spare extends [mscorlib]System.Object { }
  .method private hidebysig static void Unused(int64 number) cil managed
  {
    ldstr "never"
    call void Texts::Show(string)
    ret
  }
  .method private hidebysig static !!0 Twist<([parts]Parts.IMeasured) V>(!!0 item) cil managed
  {
    ldarg.0
    ret
  }
  .method private hidebysig static int32 Main(string[] words) cil managed
  {
    .entrypoint
    .maxstack 4
    .locals init (class [parts]Parts.Shelf`1<class Tables.Screw> shelf, class Tables.Screw screw, valuetype Tables.Program/Box crate)
    newobj instance void class [parts]Parts.Shelf`1<class Tables.Screw>::.ctor()
    stloc.0
    newobj instance void Tables.Screw::.ctor()
    stloc.1
    ldloc.0
    ldc.i4.0
    ldloc.1
    callvirt instance void class [parts]Parts.Shelf`1<class Tables.Screw>::Put(int32, !0)
    ldloc.0
    ldfld !0[] class [parts]Parts.Shelf`1<class Tables.Screw>::items
    call !!0 [parts]Parts.Tools::First<class Tables.Screw>(!!0[])
    callvirt instance int32 [parts]Parts.IMeasured::get_Size()
    call void [mscorlib]System.Console::WriteLine(int32)
    ldloc.0
    ldloc.1
    ldloc.1
    callvirt instance !!0 class [parts]Parts.Shelf`1<class Tables.Screw>::Pick<class Tables.Screw>(!!0, !0)
    ldc.i4.5
    ldc.i4.2
    callvirt instance string [parts]Parts.Part::Label(int32, valuetype [parts]Parts.Kind)
    call string [parts]Parts.Tools::Signed(string)
    call void Texts::Show(string)
    newobj instance void [parts]Parts.Bell::.ctor()
    ldnull
    callvirt instance void [parts]Parts.Bell::add_Rung(class [parts]Parts.Listener)
    ldloca.s crate
    ldflda valuetype [parts]Parts.Pair Tables.Program/Box::pair
    ldsfld int32 [parts]Parts.Tools::Seed
    stfld int32 [parts]Parts.Pair::left
    ldloca.s crate
    ldflda valuetype [parts]Parts.Pair Tables.Program/Box::pair
    ldfld int32 [parts]Parts.Pair::left
    call void [mscorlib]System.Console::WriteLine(int32)
    ldloc.1
    call !0 class Tables.Ring`1<class Tables.Screw>::Turn(!0)
    call !!0 Tables.Program::Twist<class Tables.Screw>(!!0)
    callvirt instance int32 Tables.IScaled::get_Scale()
    call void [mscorlib]System.Console::WriteLine(int32)
    ldnull
    call void Tables.Gong::add_Struck(class [parts]Parts.Listener)
    ldsfld int64 Tables.Program::big
    call void [mscorlib]System.Console::WriteLine(int64)
    ldsfld int32[] [parts]Parts.Tools::Table
    ldc.i4.1
    ldelem.i4
    ret
  }
}
