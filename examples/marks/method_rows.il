// A MethodImpl row makes a method answer another one, of any name (II.22.27): a call of the one keeps the other where it is what
// a made class answers with. The other way round, a kept method keeps each one that it answers by such a row, with its type: the
// descriptor's Explicit::Answer keeps IAsked::Ask, though nothing calls it, and so the interface and the row for it.
.assembly extern mscorlib { .ver 4:0:0:0 }
.assembly method_rows { .ver 1:0:0:0 }
.module method_rows.exe

.class private auto ansi Program extends [mscorlib]System.Object
{
  .method private static void Main() cil managed
  {
    .entrypoint
    .maxstack 8
    newobj instance void Replaced::.ctor()
    callvirt instance void Base::Call()
    newobj instance void Replaced::.ctor()
    callvirt instance string [mscorlib]System.Object::ToString()
    call void [mscorlib]System.Console::WriteLine(string)
    ret
  }
}

.class private auto ansi Base extends [mscorlib]System.Object
{
  .method public specialname rtspecialname instance void .ctor() cil managed
  {
    .maxstack 8
    ldarg.0
    call instance void [mscorlib]System.Object::.ctor()
    ret
  }
  .method public newslot virtual instance void Call() cil managed
  {
    .maxstack 8
    ldstr "base"
    call void [mscorlib]System.Console::WriteLine(string)
    ret
  }
  .method public newslot virtual instance void Uncalled() cil managed
  {
    .maxstack 8
    ret
  }
}

.class private auto ansi Replaced extends Base
{
  .method public specialname rtspecialname instance void .ctor() cil managed
  {
    .maxstack 8
    ldarg.0
    call instance void Base::.ctor()
    ret
  }
  .method private newslot virtual instance void Instead() cil managed
  {
    .override Base::Call
    .maxstack 8
    ldstr "instead"
    call void [mscorlib]System.Console::WriteLine(string)
    ret
  }
  .method private newslot virtual instance void InsteadOfUncalled() cil managed
  {
    .override Base::Uncalled
    .maxstack 8
    ret
  }
  .method private newslot virtual instance string Text() cil managed
  {
    .override [mscorlib]System.Object::ToString
    .maxstack 8
    ldstr "text"
    ret
  }
}

.class interface private abstract auto ansi IAsked
{
  .method public newslot abstract virtual instance void Ask() cil managed { }
  .method public newslot abstract virtual instance void Other() cil managed { }
}

.class private auto ansi Explicit extends [mscorlib]System.Object implements IAsked
{
  .method private newslot virtual final instance void Answer() cil managed
  {
    .override IAsked::Ask
    .maxstack 8
    ret
  }
  .method public newslot virtual final instance void Other() cil managed
  {
    .maxstack 8
    ret
  }
}
