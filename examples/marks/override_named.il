// A call may name a method that overrides another (II.10.3): the overridden one is kept, and what answers it in every made class, not
// only in those below the named one.
.assembly extern mscorlib { .ver 4:0:0:0 }
.assembly override_named { .ver 1:0:0:0 }
.module override_named.exe

.class private auto ansi Program extends [mscorlib]System.Object
{
  .method private static void Main() cil managed
  {
    .entrypoint
    .maxstack 8
    newobj instance void Other::.ctor()
    pop
    newobj instance void Named::.ctor()
    callvirt instance int32 Named::Number()
    call void [mscorlib]System.Console::WriteLine(int32)
    ret
  }
}

.class private auto ansi Base extends [mscorlib]System.Object
{
  .method public specialname rtspecialname instance void .ctor() cil managed
  {
    .maxstack 8
    ldarg.0
    call instance void [mscorlib]System.Object::.ctor()
    ret
  }
  .method public newslot virtual instance int32 Number() cil managed
  {
    .maxstack 8
    ldc.i4.1
    ret
  }
}

.class private auto ansi Named extends Base
{
  .method public specialname rtspecialname instance void .ctor() cil managed
  {
    .maxstack 8
    ldarg.0
    call instance void Base::.ctor()
    ret
  }
  .method public virtual instance int32 Number() cil managed
  {
    .maxstack 8
    ldc.i4.2
    ret
  }
}

.class private auto ansi Other extends Base
{
  .method public specialname rtspecialname instance void .ctor() cil managed
  {
    .maxstack 8
    ldarg.0
    call instance void Base::.ctor()
    ret
  }
  .method public virtual instance int32 Number() cil managed
  {
    .maxstack 8
    ldc.i4.3
    ret
  }
}
