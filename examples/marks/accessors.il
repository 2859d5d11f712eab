// A property or event stays where one of its accessors does (II.22.34, II.22.13, II.22.28), with its owner, the types of its signature
// or its event type; an accessor may be another type's method. The other accessors go, and so does a property without a kept accessor.
.assembly extern mscorlib { .ver 4:0:0:0 }
.assembly accessors { .ver 1:0:0:0 }
.module accessors.exe

.class private auto ansi Program extends [mscorlib]System.Object
{
  .method private static void Main() cil managed
  {
    .entrypoint
    .maxstack 8
    call int32 Owner::get_Read()
    call void [mscorlib]System.Console::WriteLine(int32)
    ldnull
    call void Owner::add_Heard(object)
    call void Owner::raise_Raised()
    call void Owner::other_Other()
    call int32 Elsewhere::get_Far()
    pop
    ret
  }
}

.class private auto ansi Handler extends [mscorlib]System.Object { }
.class private auto ansi UnheardHandler extends [mscorlib]System.Object { }
.class private auto ansi PropertyModifier extends [mscorlib]System.Object { }

.class private auto ansi Elsewhere extends [mscorlib]System.Object
{
  .method public static int32 get_Far() cil managed
  {
    .maxstack 8
    ldc.i4.6
    ret
  }
}

.class private auto ansi Owner extends [mscorlib]System.Object
{
  .method public specialname static int32 get_Read() cil managed
  {
    .maxstack 8
    ldc.i4.5
    ret
  }
  .method public specialname static void set_Read(int32 v) cil managed
  {
    .maxstack 8
    ret
  }
  .method public specialname static int32 get_Unread() cil managed
  {
    .maxstack 8
    ldc.i4.5
    ret
  }
  .method public specialname static void add_Heard(object h) cil managed
  {
    .maxstack 8
    ret
  }
  .method public specialname static void remove_Heard(object h) cil managed
  {
    .maxstack 8
    ret
  }
  .method public specialname static void add_Unheard(object h) cil managed
  {
    .maxstack 8
    ret
  }
  .method public specialname static void add_Raised(object h) cil managed
  {
    .maxstack 8
    ret
  }
  .method public specialname static void raise_Raised() cil managed
  {
    .maxstack 8
    ret
  }
  .method public specialname static int32 get_Other() cil managed
  {
    .maxstack 8
    ldc.i4.5
    ret
  }
  .method public specialname static void other_Other() cil managed
  {
    .maxstack 8
    ret
  }
  .property int32 modopt(PropertyModifier) Read()
  {
    .get int32 Owner::get_Read()
    .set void Owner::set_Read(int32)
  }
  .property int32 Unread()
  {
    .get int32 Owner::get_Unread()
  }
  .event Handler Heard
  {
    .addon void Owner::add_Heard(object)
    .removeon void Owner::remove_Heard(object)
  }
  .event UnheardHandler Unheard
  {
    .addon void Owner::add_Unheard(object)
  }
  .event Handler Raised
  {
    .addon void Owner::add_Raised(object)
    .fire void Owner::raise_Raised()
  }
  .property int32 Far()
  {
    .get int32 Elsewhere::get_Far()
  }
  .property int32 Other()
  {
    .get int32 Owner::get_Other()
    .other void Owner::other_Other()
  }
}
