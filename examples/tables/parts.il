// The library of tables.exe: rows in each table of ECMA-335 II.22, some that the program needs and some that nothing needs.
.assembly extern mscorlib { .ver 4:0:0:0 .publickeytoken = (B7 7A 5C 56 19 34 E0 89) }
.assembly extern ghost { .ver 1:0:0:0 .hash = (01 02 03) }
.assembly extern 'unused' { .ver 9:9:9:9 }
.assembly parts
{
  .ver 2:1:0:0
  .custom instance void Parts.NoteAttribute::.ctor(string) = (01 00 01 41 00 00)
}
.module parts.dll
.module extern gears.dll
.file nometadata extra.bin .hash = (01 02 03 04)
.mresource public tables.xml { }
.class extern public forwarder Parts.Gone { .assembly extern ghost }

.class public auto ansi Parts.NoteAttribute extends [mscorlib]System.Attribute
{
  .field public int32 Extra
  .field private int32 level
  .field private int32 spare
  .method public hidebysig specialname rtspecialname instance void .ctor(string text) cil managed
  {
    ldarg.0
    call instance void [mscorlib]System.Attribute::.ctor()
    ret
  }
  .method public hidebysig specialname rtspecialname instance void .ctor(int32 number) cil managed
  {
    .param [1]
    .custom instance void Parts.NoteAttribute::.ctor(string) = (01 00 01 49 00 00)
    ldarg.0
    call instance void [mscorlib]System.Attribute::.ctor()
    ret
  }
  .method public hidebysig specialname instance int32 get_Level() cil managed
  {
    ldarg.0
    ldfld int32 Parts.NoteAttribute::level
    ret
  }
  .method public hidebysig specialname instance void set_Level(int32 'value') cil managed
  {
    ldarg.0
    ldarg.1
    stfld int32 Parts.NoteAttribute::level
    ret
  }
  .property instance int32 Level()
  {
    .get instance int32 Parts.NoteAttribute::get_Level()
    .set instance void Parts.NoteAttribute::set_Level(int32)
  }
}

// Nothing but an interface row names it.
.class interface public abstract auto ansi Parts.INamed
{
  .method public hidebysig newslot specialname abstract virtual instance string get_Name() cil managed { }
  .property instance string Name() { .get instance string Parts.INamed::get_Name() }
}

.class interface public abstract auto ansi Parts.IMeasured
{
  .method public hidebysig newslot specialname abstract virtual instance int32 get_Size() cil managed { }
  .method public hidebysig newslot abstract virtual instance void Skip(int32 many) cil managed { }
  .property instance int32 Size() = int32(3) { .get instance int32 Parts.IMeasured::get_Size() }
}

.class public auto ansi sealed Parts.Kind extends [mscorlib]System.Enum
{
  .field public specialname rtspecialname int32 value__
  .field public static literal valuetype Parts.Kind Small = int32(1)
  .field public static literal valuetype Parts.Kind Large = int32(2)
}

.class public auto ansi sealed Parts.Color extends [mscorlib]System.Enum
{
  .field public specialname rtspecialname int32 value__
  .field public static literal valuetype Parts.Color Red = int32(1)
}

.class public abstract auto ansi beforefieldinit Parts.Part extends [mscorlib]System.Object implements Parts.INamed, Parts.IMeasured
{
  .field private marshal(lpstr) string name
  .field public int32 spare
  .field public static literal int32 Max = int32(7)
  .field public static literal string Word = "no"
  .custom instance void Parts.NoteAttribute::.ctor(string) = (01 00 01 42 02 00 53 08 05 45 78 74 72 61 01 00 00 00 54 08 05 4C 65 76 65 6C 02 00 00 00)
  .method family hidebysig specialname rtspecialname instance void .ctor(string name) cil managed
  {
    .param [1]
    .custom instance void Parts.NoteAttribute::.ctor(string) = (01 00 01 50 00 00)
    ldarg.0
    call instance void [mscorlib]System.Object::.ctor()
    ldarg.0
    ldarg.1
    stfld string Parts.Part::name
    ret
  }
  .method public hidebysig newslot specialname abstract virtual instance int32 get_Units() cil managed { }
  .method public hidebysig newslot specialname virtual instance void set_Units(int32 'value') cil managed { ret }
  .property instance int32 Units()
  {
    .custom instance void [mscorlib]System.ObsoleteAttribute::.ctor(string) = (01 00 01 4F 00 00)
    .get instance int32 Parts.Part::get_Units()
    .set instance void Parts.Part::set_Units(int32)
  }
  // A property that nothing uses.
  .method public hidebysig specialname instance string get_Title() cil managed
  {
    ldarg.0
    ldfld string Parts.Part::name
    ret
  }
  .property instance string Title() { .get instance string Parts.Part::get_Title() }
  .method private hidebysig newslot specialname virtual final instance int32 Parts.IMeasured.get_Size() cil managed
  {
    .override Parts.IMeasured::get_Size
    .locals init (int32 units, string text)
    ldarg.0
    callvirt instance int32 Parts.Part::get_Units()
    stloc.0
    ldloc.0
    ret
  }
  .method private hidebysig newslot virtual final instance void Parts.IMeasured.Skip(int32 many) cil managed
  {
    .override Parts.IMeasured::Skip
    ret
  }
  .method private hidebysig newslot specialname virtual final instance string Parts.INamed.get_Name() cil managed
  {
    .override Parts.INamed::get_Name
    .locals init (int64 never)
    ldstr "unused"
    ret
  }
  .method public hidebysig newslot virtual instance string marshal(lpstr) Label([opt] int32 width, valuetype Parts.Kind kind) cil managed
  {
    .param [0]
    .custom instance void Parts.NoteAttribute::.ctor(string) = (01 00 01 52 00 00)
    .param [1] = int32(5)
    ldarg.0
    ldfld string Parts.Part::name
    ldstr " of the parts"
    call string [mscorlib]System.String::Concat(string, string)
    ret
  }
}

.class public auto ansi beforefieldinit Parts.Listener extends [mscorlib]System.Object { }
.class public auto ansi beforefieldinit Parts.Deaf extends [mscorlib]System.Object { }

.class public auto ansi beforefieldinit Parts.Bell extends [mscorlib]System.Object
{
  .field private int32 modreq([mscorlib]System.Runtime.CompilerServices.IsVolatile) count
  .method public hidebysig specialname rtspecialname instance void .ctor() cil managed
  {
    ldarg.0
    call instance void [mscorlib]System.Object::.ctor()
    ret
  }
  .method public hidebysig specialname instance void add_Broken(class Parts.Deaf 'value') cil managed { ret }
  .method public hidebysig specialname instance void remove_Broken(class Parts.Deaf 'value') cil managed { ret }
  .method public hidebysig specialname instance void add_Rung(class Parts.Listener 'value') cil managed
  {
    ldarg.0
    ldc.i4.1
    volatile.
    stfld int32 modreq([mscorlib]System.Runtime.CompilerServices.IsVolatile) Parts.Bell::count
    ldstr "rung"
    call void [mscorlib]System.Console::WriteLine(string)
    ret
  }
  .method public hidebysig specialname instance void remove_Rung(class Parts.Listener 'value') cil managed { ret }
  .event Parts.Deaf Broken
  {
    .addon instance void Parts.Bell::add_Broken(class Parts.Deaf)
    .removeon instance void Parts.Bell::remove_Broken(class Parts.Deaf)
  }
  .event Parts.Listener Rung
  {
    .custom instance void Parts.NoteAttribute::.ctor(string) = (01 00 01 45 00 00)
    .addon instance void Parts.Bell::add_Rung(class Parts.Listener)
    .removeon instance void Parts.Bell::remove_Rung(class Parts.Listener)
  }
}

// Of this class a descriptor names one event and one field.
.class public auto ansi beforefieldinit Parts.Siren extends [mscorlib]System.Object
{
  .field public static literal int32 Pitch = int32(440)
  .field public static literal int32 Depth = int32(220)
  .method public hidebysig specialname static void add_Wail(class Parts.Listener 'value') cil managed { ret }
  .method public hidebysig specialname static void remove_Wail(class Parts.Listener 'value') cil managed { ret }
  .method public hidebysig specialname static void add_Hush(class Parts.Listener 'value') cil managed { ret }
  .method public hidebysig specialname static void remove_Hush(class Parts.Listener 'value') cil managed { ret }
  .event Parts.Listener Wail
  {
    .addon void Parts.Siren::add_Wail(class Parts.Listener)
    .removeon void Parts.Siren::remove_Wail(class Parts.Listener)
  }
  .event Parts.Listener Hush
  {
    .addon void Parts.Siren::add_Hush(class Parts.Listener)
    .removeon void Parts.Siren::remove_Hush(class Parts.Listener)
  }
}

.class public sequential ansi sealed Parts.Pair extends [mscorlib]System.ValueType
{
  .pack 1
  .size 16
  .field public int32 left
  .field public int64 right
  .field public static int32 shared
}

.class public explicit ansi sealed Parts.Union extends [mscorlib]System.ValueType
{
  .pack 2
  .size 4
  .field [0] public int32 whole
  .field [2] public int16 half
}

.class public auto ansi beforefieldinit Parts.Bag`2<valuetype .ctor ([mscorlib]System.ValueType) K, (Parts.INamed) V> extends [mscorlib]System.Object
{
  .field private !1 first
}

.class public auto ansi beforefieldinit Parts.Shelf`1<class (Parts.IMeasured, Parts.Part) T> extends [mscorlib]System.Object
{
  .param type T
  .custom instance void Parts.NoteAttribute::.ctor(string) = (01 00 01 54 00 00)
  .field public !0[] items
  .field private !0 last
  .method public hidebysig specialname rtspecialname instance void .ctor() cil managed
  {
    .maxstack 3
    ldarg.0
    call instance void [mscorlib]System.Object::.ctor()
    ldarg.0
    ldc.i4.2
    newarr !0
    stfld !0[] class Parts.Shelf`1<!0>::items
    ret
  }
  .method public hidebysig instance void Put(int32 place, !0 item) cil managed
  {
    .maxstack 3
    .locals init (class Parts.Shelf`1/Slot<!0> slot)
    newobj instance void class Parts.Shelf`1/Slot<!0>::.ctor()
    stloc.0
    ldloc.0
    ldarg.2
    stfld !0 class Parts.Shelf`1/Slot<!0>::held
    ldarg.0
    ldfld !0[] class Parts.Shelf`1<!0>::items
    ldarg.1
    ldloc.0
    ldfld !0 class Parts.Shelf`1/Slot<!0>::held
    stelem !0
    ret
  }
  .method public hidebysig instance !!0 Pick<(Parts.IMeasured) U>(!!0 one, !0 other) cil managed
  {
    .param type U
    .custom instance void Parts.NoteAttribute::.ctor(string) = (01 00 01 55 00 00)
    ldarg.1
    ret
  }
  .method public hidebysig instance void Drop<W>(!!0 one) cil managed { ret }

  .class nested public auto ansi beforefieldinit Slot<S> extends [mscorlib]System.Object
  {
    .field public !0 held
    .method public hidebysig specialname rtspecialname instance void .ctor() cil managed
    {
      ldarg.0
      call instance void [mscorlib]System.Object::.ctor()
      ret
    }
  }
  .class nested public auto ansi beforefieldinit Lost<S> extends [mscorlib]System.Object { }
}

// The program has a class of this name too.
.class private abstract auto ansi sealed Texts extends [mscorlib]System.Object
{
  .method assembly hidebysig static string Sign(string text) cil managed
  {
    ldarg.0
    ldstr "!"
    call string [mscorlib]System.String::Concat(string, string)
    ret
  }
}

.class public abstract auto ansi sealed Parts.Tools extends [mscorlib]System.Object
{
  .permissionset demand = (3C 00 50 00 65 00 72 00 6D 00 69 00 73 00 73 00 69 00 6F 00 6E 00 53 00 65 00 74 00 20 00 63 00 6C 00 61 00 73 00 73 00 3D 00 22 00 53 00 79 00 73 00 74 00 65 00 6D 00 2E 00 53 00 65 00 63 00 75 00 72 00 69 00 74 00 79 00 2E 00 50 00 65 00 72 00 6D 00 69 00 73 00 73 00 69 00 6F 00 6E 00 53 00 65 00 74 00 22 00 20 00 76 00 65 00 72 00 73 00 69 00 6F 00 6E 00 3D 00 22 00 31 00 22 00 2F 00 3E 00)
  .class nested private explicit ansi sealed Bytes extends [mscorlib]System.ValueType { .pack 1 .size 12 }
  .class nested private explicit ansi sealed More extends [mscorlib]System.ValueType { .pack 1 .size 5 }
  .field private static valuetype Parts.Tools/More more at D_More
  .field private static valuetype Parts.Tools/Bytes bytes at D_Bytes
  .field public static int32 Seed at D_Seed
  .field public static int32[] Table
  .data D_More = bytearray (09 08 07 06 05)
  .data D_Bytes = bytearray (04 00 00 00 05 00 00 00 06 00 00 00)
  .data D_Seed = bytearray (2A 00 00 00)
  .method private hidebysig specialname rtspecialname static void .cctor() cil managed
  {
    .maxstack 3
    ldc.i4.3
    newarr [mscorlib]System.Int32
    dup
    ldtoken field valuetype Parts.Tools/Bytes Parts.Tools::bytes
    call void [mscorlib]System.Runtime.CompilerServices.RuntimeHelpers::InitializeArray(class [mscorlib]System.Array, valuetype [mscorlib]System.RuntimeFieldHandle)
    stsfld int32[] Parts.Tools::Table
    ret
  }
  .method public hidebysig static !!0 First<T>(!!0[] items) cil managed
  {
    .locals init (!!0 item, int32 place)
    ldarg.0
    ldc.i4.0
    ldelem !!0
    stloc.0
    ldloc.0
    ret
  }
  .method public hidebysig static void Swap<A, (Parts.INamed) B>(!!0 one, !!1 other) cil managed { ret }
  .method public hidebysig static string Signed(string text) cil managed
  {
    .locals init (int32 units, string text)
    ldarg.0
    call string Texts::Sign(string)
    ret
  }
  .method public hidebysig static pinvokeimpl("gears.dll" as "turn" winapi) void Turn(int32 by) cil managed preservesig { }
}
