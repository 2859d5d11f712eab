// A DynamicDependency is known by the full name of its type alone, as compilers refer to it: the type isn't among the inputs, nor in the
// core library here. A null type is the member's own. One of that name nested in another type is another attribute. So
// is the attribute on a method that isn't kept.
.assembly extern mscorlib { .ver 4:0:0:0 }
.assembly extern System.Runtime { .publickeytoken = (B0 3F 5F 7F 11 D5 0A 3A) .ver 8:0:0:0 }
.assembly dependency_reference { .ver 1:0:0:0 }
.module dependency_reference.exe

.class private auto ansi Program extends [mscorlib]System.Object
{
  .method private static void Main() cil managed
  {
    .entrypoint
    .maxstack 8
    call void Program::Call()
    ret
  }
  .method private static void Call() cil managed
  {
    // DynamicDependency("Named"), DynamicDependency("OfNull", null), DynamicDependency(PublicEvents, typeof(Events)),
    // DynamicDependency(NonPublicEvents, typeof(Hidden)), Outer.DynamicDependency("Other")
    .custom instance void [System.Runtime]System.Diagnostics.CodeAnalysis.DynamicDependencyAttribute::.ctor(string) = (
      01 00 05 4e 61 6d 65 64 00 00 )
    .custom instance void [System.Runtime]System.Diagnostics.CodeAnalysis.DynamicDependencyAttribute::.ctor(string, class [System.Runtime]System.Type) = (
      01 00 06 4f 66 4e 75 6c 6c ff 00 00 )
    .custom instance void [System.Runtime]System.Diagnostics.CodeAnalysis.DynamicDependencyAttribute::.ctor(
      valuetype [System.Runtime]System.Diagnostics.CodeAnalysis.DynamicallyAccessedMemberTypes, class [System.Runtime]System.Type) = (
      01 00 00 08 00 00 06 45 76 65 6e 74 73 00 00 )
    .custom instance void [System.Runtime]System.Diagnostics.CodeAnalysis.DynamicDependencyAttribute::.ctor(
      valuetype [System.Runtime]System.Diagnostics.CodeAnalysis.DynamicallyAccessedMemberTypes, class [System.Runtime]System.Type) = (
      01 00 00 10 00 00 06 48 69 64 64 65 6e 00 00 )
    .custom instance void Outer/System.Diagnostics.CodeAnalysis.DynamicDependencyAttribute::.ctor(string) = (
      01 00 05 4f 74 68 65 72 00 00 )
    .maxstack 8
    ldstr "reference"
    call void [mscorlib]System.Console::WriteLine(string)
    ret
  }
  .method private static void Named() cil managed
  {
    .maxstack 8
    ret
  }
  .method private static void OfNull() cil managed
  {
    .maxstack 8
    ret
  }
  .method private static void Other() cil managed
  {
    .custom instance void [System.Runtime]System.Diagnostics.CodeAnalysis.DynamicDependencyAttribute::.ctor(string) = (
      01 00 05 54 68 69 72 64 00 00 )
    .maxstack 8
    ret
  }
  .method private static void Third() cil managed
  {
    .maxstack 8
    ret
  }
}

.class private auto ansi Outer extends [mscorlib]System.Object
{
  .class nested private auto ansi System.Diagnostics.CodeAnalysis.DynamicDependencyAttribute extends [mscorlib]System.Attribute
  {
    .method public specialname rtspecialname instance void .ctor(string text) cil managed
    {
      .maxstack 8
      ldarg.0
      call instance void [mscorlib]System.Attribute::.ctor()
      ret
    }
  }
}

.class private auto ansi Handler extends [mscorlib]System.Object { }

.class private auto ansi Events extends [mscorlib]System.Object
{
  .method public specialname static void add_Public(object h) cil managed
  {
    .maxstack 8
    ret
  }
  .method private specialname static void remove_Public(object h) cil managed
  {
    .maxstack 8
    ret
  }
  .method private specialname static void add_Private(object h) cil managed
  {
    .maxstack 8
    ret
  }
  .event Handler Public
  {
    .addon void Events::add_Public(object)
    .removeon void Events::remove_Public(object)
  }
  .event Handler Private
  {
    .addon void Events::add_Private(object)
  }
}

.class private auto ansi HiddenBase extends [mscorlib]System.Object
{
  .method family specialname static void add_OfFamily(object h) cil managed
  {
    .maxstack 8
    ret
  }
  .method private specialname static void add_OfBase(object h) cil managed
  {
    .maxstack 8
    ret
  }
  .event Handler OfFamily
  {
    .addon void HiddenBase::add_OfFamily(object)
  }
  .event Handler OfBase
  {
    .addon void HiddenBase::add_OfBase(object)
  }
}

.class private auto ansi Hidden extends HiddenBase
{
  .method public specialname static void add_Public(object h) cil managed
  {
    .maxstack 8
    ret
  }
  .method private specialname static void add_Private(object h) cil managed
  {
    .maxstack 8
    ret
  }
  .event Handler Public
  {
    .addon void Hidden::add_Public(object)
  }
  .event Handler Private
  {
    .addon void Hidden::add_Private(object)
  }
}
