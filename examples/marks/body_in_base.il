// A MethodImpl row may have a method of a base as its body (II.22.27). Where that method is kept, for another reason, it keeps what it
// answers by any such row, with the types that the row names: IAsked::Ask here. The class that has the row goes, if nothing else needs it.
.assembly extern mscorlib { .ver 4:0:0:0 }
.assembly body_in_base { .ver 1:0:0:0 }
.module body_in_base.exe

.class private auto ansi Program extends [mscorlib]System.Object
{
  .method private static void Main() cil managed
  {
    .entrypoint
    .maxstack 8
    newobj instance void Base::.ctor()
    callvirt instance void Base::Answer()
    ret
  }
}

.class interface private abstract auto ansi IAsked
{
  .method public newslot abstract virtual instance void Ask() cil managed { }
}

.class private auto ansi Base extends [mscorlib]System.Object
{
  .method public specialname rtspecialname instance void .ctor() cil managed
  {
    .maxstack 8
    ldarg.0
    call instance void [mscorlib]System.Object::.ctor()
    ret
  }
  .method public newslot virtual instance void Answer() cil managed
  {
    .maxstack 8
    ldstr "answer"
    call void [mscorlib]System.Console::WriteLine(string)
    ret
  }
}

.class private auto ansi Derived extends Base implements IAsked
{
  // ilasm of mono can't write a row with another type's method: in the compiled file the Body cell of the one MethodImpl row was then set
  // from Derived::Stand to Base::Answer.
  .method private newslot virtual instance void Stand() cil managed
  {
    .override IAsked::Ask
    .maxstack 8
    ret
  }
}
