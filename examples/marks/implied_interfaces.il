// A class answers the methods of an interface that its row implies (II.12.2), here with other arguments than the row's: IArrays<T>
// implies IGive<T[]>, and Giver has the row for IArrays<int32> alone. Its second row, for IUnneeded, goes. Taker has the same row,
// is only named and not abstract, so it answers the abstract method too.
.assembly extern mscorlib { .ver 4:0:0:0 }
.assembly implied_interfaces { .ver 1:0:0:0 }
.module implied_interfaces.exe

.class private auto ansi Program extends [mscorlib]System.Object
{
  .method private static void Main() cil managed
  {
    .entrypoint
    .maxstack 8
    newobj instance void Giver::.ctor()
    isinst Taker
    pop
    newobj instance void Giver::.ctor()
    callvirt instance !0 class IGive`1<int32[]>::Give()
    ldlen
    conv.i4
    call void [mscorlib]System.Console::WriteLine(int32)
    ret
  }
}

.class interface private abstract auto ansi IGive`1<T>
{
  .method public newslot abstract virtual instance !0 Give() cil managed { }
  .method public newslot abstract virtual instance void Uncalled() cil managed { }
}

.class interface private abstract auto ansi IArrays`1<T> implements class IGive`1<!0[]>
{
  .method public newslot abstract virtual instance void UncalledToo() cil managed { }
}

.class interface private abstract auto ansi IUnneeded { }

.class private auto ansi Giver extends [mscorlib]System.Object implements class IArrays`1<int32>, IUnneeded
{
  .method public specialname rtspecialname instance void .ctor() cil managed
  {
    .maxstack 8
    ldarg.0
    call instance void [mscorlib]System.Object::.ctor()
    ret
  }
  .method public newslot virtual instance int32[] Give() cil managed
  {
    .maxstack 8
    ldc.i4.3
    newarr [mscorlib]System.Int32
    ret
  }
  .method public newslot virtual instance void Uncalled() cil managed
  {
    .maxstack 8
    ret
  }
  .method public newslot virtual instance void UncalledToo() cil managed
  {
    .maxstack 8
    ret
  }
}

.class private auto ansi Taker extends [mscorlib]System.Object implements class IArrays`1<string>
{
  .method public newslot virtual instance string[] Give() cil managed
  {
    .maxstack 8
    ldnull
    ret
  }
  .method public newslot virtual instance void Uncalled() cil managed
  {
    .maxstack 8
    ret
  }
  .method public newslot virtual instance void UncalledToo() cil managed
  {
    .maxstack 8
    ret
  }
}
