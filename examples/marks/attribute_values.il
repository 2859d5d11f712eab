// What an attribute's value names (II.23.3): a property in the nearest type that has one of that name, which here has no setter, so that
// nothing is kept by it, not even the base's; a type by its name, nested and in its assembly, where such a type is there; a name
// that is there in no input keeps nothing. A name with `[` is no name of one type.
.assembly extern mscorlib { .ver 4:0:0:0 }
.assembly attribute_values { .ver 1:0:0:0 }
.module attribute_values.exe

.class private auto ansi Program extends [mscorlib]System.Object
{
  // Note(typeof("Space.Outer+Inner, attribute_values"), ReadOnly = "a")
  .custom instance void Note::.ctor(class [mscorlib]System.Type) = (
    01 00 23 53 70 61 63 65 2e 4f 75 74 65 72 2b 49 6e 6e 65 72 2c 20 61 74 74 72 69 62 75 74 65 5f
    76 61 6c 75 65 73 01 00 54 0e 08 52 65 61 64 4f 6e 6c 79 01 61 )
  // Note(typeof("Nowhere")), Note(null), Note(typeof("Other[]"))
  .custom instance void Note::.ctor(class [mscorlib]System.Type) = ( 01 00 07 4e 6f 77 68 65 72 65 00 00 )
  .custom instance void Note::.ctor(class [mscorlib]System.Type) = ( 01 00 ff 00 00 )
  .custom instance void Note::.ctor(class [mscorlib]System.Type) = ( 01 00 07 4f 74 68 65 72 5b 5d 00 00 )
  .method private static void Main() cil managed
  {
    .entrypoint
    .maxstack 8
    ldstr "values"
    call void [mscorlib]System.Console::WriteLine(string)
    ret
  }
}

.class private auto ansi Other extends [mscorlib]System.Object { }

.class private auto ansi Space.Outer extends [mscorlib]System.Object
{
  .class nested private auto ansi Inner extends [mscorlib]System.Object { }
  .class nested private auto ansi Beside extends [mscorlib]System.Object { }
}

.class private auto ansi NoteBase extends [mscorlib]System.Attribute
{
  .method public specialname rtspecialname instance void .ctor() cil managed
  {
    .maxstack 8
    ldarg.0
    call instance void [mscorlib]System.Attribute::.ctor()
    ret
  }
  .method public specialname instance void set_ReadOnly(string v) cil managed
  {
    .maxstack 8
    ret
  }
  .property instance string ReadOnly()
  {
    .set instance void NoteBase::set_ReadOnly(string)
  }
}

.class private auto ansi Note extends NoteBase
{
  .method public specialname rtspecialname instance void .ctor(class [mscorlib]System.Type t) cil managed
  {
    .maxstack 8
    ldarg.0
    call instance void NoteBase::.ctor()
    ret
  }
  .method public specialname instance string get_ReadOnly() cil managed
  {
    .maxstack 8
    ldnull
    ret
  }
  .property instance string ReadOnly()
  {
    .get instance string Note::get_ReadOnly()
  }
}
