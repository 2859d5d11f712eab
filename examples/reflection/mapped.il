// `Type.GetProperty` with a name keeps the public property of that name with all its accessors, also one that isn't public, whatever
// their names are; `Type.GetField` with a name the public field. `GetMethods`, `GetFields` and `GetProperties` keep each public
// one of the type and its bases.
.assembly extern mscorlib { .ver 4:0:0:0 }
.assembly mapped { .ver 1:0:0:0 }
.module mapped.exe

.class private auto ansi Program extends [mscorlib]System.Object
{
  .method private static void Main() cil managed
  {
    .entrypoint
    .maxstack 8
    ldtoken Property
    call class [mscorlib]System.Type [mscorlib]System.Type::GetTypeFromHandle(valuetype [mscorlib]System.RuntimeTypeHandle)
    ldstr "P"
    callvirt instance class [mscorlib]System.Reflection.PropertyInfo [mscorlib]System.Type::GetProperty(string)
    callvirt instance string [mscorlib]System.Reflection.MemberInfo::get_Name()
    call void [mscorlib]System.Console::WriteLine(string)

    ldtoken Field
    call class [mscorlib]System.Type [mscorlib]System.Type::GetTypeFromHandle(valuetype [mscorlib]System.RuntimeTypeHandle)
    ldstr "f"
    callvirt instance class [mscorlib]System.Reflection.FieldInfo [mscorlib]System.Type::GetField(string)
    callvirt instance string [mscorlib]System.Reflection.MemberInfo::get_Name()
    call void [mscorlib]System.Console::WriteLine(string)

    // a field that isn't public isn't found
    ldtoken Field
    call class [mscorlib]System.Type [mscorlib]System.Type::GetTypeFromHandle(valuetype [mscorlib]System.RuntimeTypeHandle)
    ldstr "hidden"
    callvirt instance class [mscorlib]System.Reflection.FieldInfo [mscorlib]System.Type::GetField(string)
    pop

    ldtoken Methods
    call class [mscorlib]System.Type [mscorlib]System.Type::GetTypeFromHandle(valuetype [mscorlib]System.RuntimeTypeHandle)
    callvirt instance class [mscorlib]System.Reflection.MethodInfo[] [mscorlib]System.Type::GetMethods()
    ldc.i4.0
    ldelem.ref
    callvirt instance string [mscorlib]System.Reflection.MemberInfo::get_Name()
    call void [mscorlib]System.Console::WriteLine(string)

    ldtoken Fields
    call class [mscorlib]System.Type [mscorlib]System.Type::GetTypeFromHandle(valuetype [mscorlib]System.RuntimeTypeHandle)
    callvirt instance class [mscorlib]System.Reflection.FieldInfo[] [mscorlib]System.Type::GetFields()
    ldlen
    conv.i4
    call void [mscorlib]System.Console::WriteLine(int32)

    ldtoken Properties
    call class [mscorlib]System.Type [mscorlib]System.Type::GetTypeFromHandle(valuetype [mscorlib]System.RuntimeTypeHandle)
    callvirt instance class [mscorlib]System.Reflection.PropertyInfo[] [mscorlib]System.Type::GetProperties()
    ldlen
    conv.i4
    call void [mscorlib]System.Console::WriteLine(int32)
    ret
  }
}

.class private auto ansi Property extends [mscorlib]System.Object
{
  .method public static int32 reads() cil managed { .maxstack 8 ldc.i4.1 ret }
  .method private static void writes(int32 n) cil managed { .maxstack 8 ret }
  .method public static int32 get_Q() cil managed { .maxstack 8 ldc.i4.1 ret }
  .method public static void P() cil managed { .maxstack 8 ret }
  .property int32 P()
  {
    .get int32 Property::reads()
    .set void Property::writes(int32)
  }
  .property int32 Q()
  {
    .get int32 Property::get_Q()
  }
}

.class private auto ansi Field extends [mscorlib]System.Object
{
  .field public int32 f
  .field public int32 g
  .field private int32 hidden
}

.class private auto ansi MethodsBase extends [mscorlib]System.Object
{
  .method public static void OfBase() cil managed { .maxstack 8 ret }
  .method family static void FamilyOfBase() cil managed { .maxstack 8 ret }
}

.class private auto ansi Methods extends MethodsBase
{
  .field public static int32 'field'
  .method public static void Found() cil managed { .maxstack 8 ret }
  .method private static void Private() cil managed { .maxstack 8 ret }
  .method public static class Argument Takes() cil managed { .maxstack 8 ldnull ret }
}

.class private auto ansi Argument extends [mscorlib]System.Object
{
  .field public int32 'field'
}

.class private auto ansi FieldsBase extends [mscorlib]System.Object
{
  .field public int32 ofBase
  .field family int32 familyOfBase
}

.class private auto ansi Fields extends FieldsBase
{
  .field public static int32 found
  .field private int32 'private'
  .method public static void Unsearched() cil managed { .maxstack 8 ret }
}

.class private auto ansi PropertiesBase extends [mscorlib]System.Object
{
  .method public instance int32 ofBase() cil managed { .maxstack 8 ldc.i4.1 ret }
  .method family instance int32 familyOfBase() cil managed { .maxstack 8 ldc.i4.1 ret }
  .property instance int32 OfBase()
  {
    .get instance int32 PropertiesBase::ofBase()
  }
  .property instance int32 FamilyOfBase()
  {
    .get instance int32 PropertiesBase::familyOfBase()
  }
}

.class private auto ansi Properties extends PropertiesBase
{
  .method private static int32 'get'() cil managed { .maxstack 8 ldc.i4.1 ret }
  .method public static void 'set'(int32 n) cil managed { .maxstack 8 ret }
  .method private static int32 hides() cil managed { .maxstack 8 ldc.i4.1 ret }
  .method public static void Unsearched() cil managed { .maxstack 8 ret }
  .property int32 Found()
  {
    .get int32 Properties::'get'()
    .set void Properties::'set'(int32)
  }
  .property int32 Hidden()
  {
    .get int32 Properties::hides()
  }
}
