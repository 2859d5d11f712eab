// An interface's row that names nothing goes, and nothing is refused: only a DynamicDependency on the interfaces of a type would need it
// (flaw_interface_row). The descriptor keeps the class, which no code reaches, since a runtime couldn't load it.
.assembly extern mscorlib { .ver 4:0:0:0 }
.assembly extern Missing { }
.assembly missing_interface { .ver 1:0:0:0 }
.module missing_interface.exe

.class private auto ansi Program extends [mscorlib]System.Object
{
  .method private static void Main() cil managed
  {
    .entrypoint
    .maxstack 8
    ldstr "kept"
    call void [mscorlib]System.Console::WriteLine(string)
    ret
  }
}

.class private auto ansi Class extends [mscorlib]System.Object implements [Missing]IMissing
{
  .method public static void Call() cil managed
  {
    .maxstack 8
    ret
  }
}
