// A row that says that a class implements an interface stays where the interface is needed, or one that it implies (II.22.23): here
// code asks for IAsked, which the class implements by way of IMiddle alone. The row for IUnasked goes, and the interface with it.
.assembly extern mscorlib { .ver 4:0:0:0 }
.assembly interface_rows { .ver 1:0:0:0 }
.module interface_rows.exe

.class private auto ansi Program extends [mscorlib]System.Object
{
  .method private static void Main() cil managed
  {
    .entrypoint
    .maxstack 8
    newobj instance void Thing::.ctor()
    isinst IAsked
    ldnull
    cgt.un
    call void [mscorlib]System.Console::WriteLine(bool)
    ret
  }
}

.class interface private abstract auto ansi IAsked { }
.class interface private abstract auto ansi IMiddle implements IAsked, IAsideOfMiddle { }
.class interface private abstract auto ansi IAsideOfMiddle { }
.class interface private abstract auto ansi IUnasked { }

.class private auto ansi Thing extends [mscorlib]System.Object implements IMiddle, IUnasked
{
  .method public specialname rtspecialname instance void .ctor() cil managed
  {
    .maxstack 8
    ldarg.0
    call instance void [mscorlib]System.Object::.ctor()
    ret
  }
}
