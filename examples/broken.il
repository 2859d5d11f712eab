// examples/broken.exe is this program as mono's ilasm assembles it: ilasm broken.il
// Each method after Main breaks a rule of Partition III or of the machine, at the instruction with the label AT. Main calls the one
// whose number its input has. broken.places has the number, the token and the offset of each, written by hand from the labels here.
.assembly extern mscorlib {}
.assembly broken {}
.module broken.exe

.class sequential sealed A extends [mscorlib]System.ValueType
{
  .field public int32 X
  .method public instance void .ctor(int32 x) { ldarg.0 ldarg.1 stfld int32 A::X ret }
  .method public instance void Act() { ret }
}

.class sequential sealed B extends [mscorlib]System.ValueType
{
  .field public int32 X
}

.class interface abstract IDo
{
  .method public newslot abstract virtual instance void Do() {}
}

.class Plain extends [mscorlib]System.Object
{
  .field public int32 N
  .field public static int32 Count
  .field public static valuetype A Only
  .field public static literal int32 Five = int32(5)
  .method public specialname rtspecialname instance void .ctor() { ldarg.0 call instance void [mscorlib]System.Object::.ctor() ret }
  .method public instance void Act() { ret }
  .method public newslot virtual instance void Slot() { ret }
}

.class Other extends [mscorlib]System.Object
{
  .method public specialname rtspecialname instance void .ctor() { ldarg.0 call instance void [mscorlib]System.Object::.ctor() ret }
}

.class abstract Partial extends [mscorlib]System.Object
{
  .method public specialname rtspecialname instance void .ctor() { ldarg.0 call instance void [mscorlib]System.Object::.ctor() ret }
  .method public newslot abstract virtual instance void Missing() {}
}

.class Broken extends Partial
{
  .method public specialname rtspecialname instance void .ctor() { ldarg.0 call instance void Partial::.ctor() ret }
}

// answers Slot with a method that returns a value
.class Odd extends Plain
{
  .method public specialname rtspecialname instance void .ctor() { ldarg.0 call instance void Plain::.ctor() ret }
  .method public virtual instance int32 Own() { .override method instance void Plain::Slot() ldc.i4.0 ret }
}

.class Cases extends [mscorlib]System.Object
{
  .method static void take_int(int32 x) { ret }
  .method static void take_a(valuetype A x) { ret }

  .method static void Main()
  {
    .entrypoint
    call string [mscorlib]System.Console::ReadLine() call int32 [mscorlib]System.Int32::Parse(string)
    switch (ldarga_none, ldloca_none, stloc_empty, stloc_int64, stloc_null, stloc_number, stloc_struct, stloc_native, stloc_long, stloc_pointer, stloc_object, starg_int64, brtrue_empty, brtrue_struct, brfalse_handle, beq_one, beq_kinds, beq_null, bge_references, blt_un_references, bgt_pointers, bne_un_pointer, switch_empty, switch_int64, switch_native, try_branch, try_condition, try_switch, try_fall, try_ret, try_prefix, try_core_call, try_call, try_endfinally, finally_ret, finally_branch, finally_fall, finally_leave, finally_begun, finally_entered, finally_fallen, finally_left, fault_leave, catch_ret, catch_branch, catch_fall, catch_endfinally, catch_entered, add_kinds, add_object, add_pointer, sub_pointers, mul_native, div_un_null, rem_structs, and_references, add_ovf_null, add_one, shl_int64, shl_null, shr_un_pointer, ceq_kinds, ceq_object, ceq_structs, ceq_handles, cgt_references, clt_pointers, ceq_one, neg_pointer, not_struct, neg_empty, conv_i_pointer, conv_ovf_i4_object, conv_u8_struct, conv_i8_empty, call_abstract, callvirt_abstract, callvirt_none, callvirt_interface, callvirt_form, call_empty, call_number, call_pointer, call_struct, call_object, callvirt_number, callvirt_pointer, constrained_object, constrained_other, argument_int64, argument_null, argument_struct, core_argument, core_receiver, core_number, newobj_abstract, newobj_empty, newobj_null, ret_none, ret_two, ret_null, ret_struct, throw_empty, throw_object, rethrow_in_try, rethrow_in_finally, castclass_pointer, isinst_number, box_empty, box_null, box_struct, box_number, unbox_class, unbox_pointer, unbox_any_number, ldfld_other, ldfld_pointer, ldfld_struct, ldfld_number, ldfld_empty, ldflda_struct, stfld_struct, stfld_null, stfld_one, ldsfld_instance, ldsflda_instance, stsfld_instance, ldsfld_literal, stsfld_null, stsfld_struct, newarr_int64, ldlen_object, ldelem_i4_int64, ldelem_ref_int32, ldelem_i8_objects, ldelem_struct, ldelem_index_null, ldelem_index_int64, ldelem_one, ldelema_object, ldelema_index, stelem_i4_int64, stelem_i4_value, stelem_ref_int32, stelem_ref_number, stelem_struct, stelem_two, ldind_i8_int32, ldind_ref_int32, ldind_i4_object, ldind_i4_struct, ldind_on_object, ldobj_other, stobj_other, stobj_value, cpobj_source, cpobj_number, cpobj_one, initobj_other, initobj_empty, stind_i4_int64, stind_ref_number, stind_ref_int32, stind_one)
    ret
    ldarga_none: call void Cases::ldarga_none() ret
    ldloca_none: call void Cases::ldloca_none() ret
    stloc_empty: call void Cases::stloc_empty() ret
    stloc_int64: call void Cases::stloc_int64() ret
    stloc_null: call void Cases::stloc_null() ret
    stloc_number: call void Cases::stloc_number() ret
    stloc_struct: call void Cases::stloc_struct() ret
    stloc_native: call void Cases::stloc_native() ret
    stloc_long: call void Cases::stloc_long() ret
    stloc_pointer: call void Cases::stloc_pointer() ret
    stloc_object: call void Cases::stloc_object() ret
    starg_int64: call void Cases::starg_int64() ret
    brtrue_empty: call void Cases::brtrue_empty() ret
    brtrue_struct: call void Cases::brtrue_struct() ret
    brfalse_handle: call void Cases::brfalse_handle() ret
    beq_one: call void Cases::beq_one() ret
    beq_kinds: call void Cases::beq_kinds() ret
    beq_null: call void Cases::beq_null() ret
    bge_references: call void Cases::bge_references() ret
    blt_un_references: call void Cases::blt_un_references() ret
    bgt_pointers: call void Cases::bgt_pointers() ret
    bne_un_pointer: call void Cases::bne_un_pointer() ret
    switch_empty: call void Cases::switch_empty() ret
    switch_int64: call void Cases::switch_int64() ret
    switch_native: call void Cases::switch_native() ret
    try_branch: call void Cases::try_branch() ret
    try_condition: call void Cases::try_condition() ret
    try_switch: call void Cases::try_switch() ret
    try_fall: call void Cases::try_fall() ret
    try_ret: call void Cases::try_ret() ret
    try_prefix: call void Cases::try_prefix() ret
    try_core_call: call void Cases::try_core_call() ret
    try_call: call void Cases::try_call() ret
    try_endfinally: call void Cases::try_endfinally() ret
    finally_ret: call void Cases::finally_ret() ret
    finally_branch: call void Cases::finally_branch() ret
    finally_fall: call void Cases::finally_fall() ret
    finally_leave: call void Cases::finally_leave() ret
    finally_begun: call void Cases::finally_begun() ret
    finally_entered: call void Cases::finally_entered() ret
    finally_fallen: call void Cases::finally_fallen() ret
    finally_left: call void Cases::finally_left() ret
    fault_leave: call void Cases::fault_leave() ret
    catch_ret: call void Cases::catch_ret() ret
    catch_branch: call void Cases::catch_branch() ret
    catch_fall: call void Cases::catch_fall() ret
    catch_endfinally: call void Cases::catch_endfinally() ret
    catch_entered: call void Cases::catch_entered() ret
    add_kinds: call void Cases::add_kinds() ret
    add_object: call void Cases::add_object() ret
    add_pointer: call void Cases::add_pointer() ret
    sub_pointers: call void Cases::sub_pointers() ret
    mul_native: call void Cases::mul_native() ret
    div_un_null: call void Cases::div_un_null() ret
    rem_structs: call void Cases::rem_structs() ret
    and_references: call void Cases::and_references() ret
    add_ovf_null: call void Cases::add_ovf_null() ret
    add_one: call void Cases::add_one() ret
    shl_int64: call void Cases::shl_int64() ret
    shl_null: call void Cases::shl_null() ret
    shr_un_pointer: call void Cases::shr_un_pointer() ret
    ceq_kinds: call void Cases::ceq_kinds() ret
    ceq_object: call void Cases::ceq_object() ret
    ceq_structs: call void Cases::ceq_structs() ret
    ceq_handles: call void Cases::ceq_handles() ret
    cgt_references: call void Cases::cgt_references() ret
    clt_pointers: call void Cases::clt_pointers() ret
    ceq_one: call void Cases::ceq_one() ret
    neg_pointer: call void Cases::neg_pointer() ret
    not_struct: call void Cases::not_struct() ret
    neg_empty: call void Cases::neg_empty() ret
    conv_i_pointer: call void Cases::conv_i_pointer() ret
    conv_ovf_i4_object: call void Cases::conv_ovf_i4_object() ret
    conv_u8_struct: call void Cases::conv_u8_struct() ret
    conv_i8_empty: call void Cases::conv_i8_empty() ret
    call_abstract: call void Cases::call_abstract() ret
    callvirt_abstract: call void Cases::callvirt_abstract() ret
    callvirt_none: call void Cases::callvirt_none() ret
    callvirt_interface: call void Cases::callvirt_interface() ret
    callvirt_form: call void Cases::callvirt_form() ret
    call_empty: call void Cases::call_empty() ret
    call_number: call void Cases::call_number() ret
    call_pointer: call void Cases::call_pointer() ret
    call_struct: call void Cases::call_struct() ret
    call_object: call void Cases::call_object() ret
    callvirt_number: call void Cases::callvirt_number() ret
    callvirt_pointer: call void Cases::callvirt_pointer() ret
    constrained_object: call void Cases::constrained_object() ret
    constrained_other: call void Cases::constrained_other() ret
    argument_int64: call void Cases::argument_int64() ret
    argument_null: call void Cases::argument_null() ret
    argument_struct: call void Cases::argument_struct() ret
    core_argument: call void Cases::core_argument() ret
    core_receiver: call void Cases::core_receiver() ret
    core_number: call void Cases::core_number() ret
    newobj_abstract: call void Cases::newobj_abstract() ret
    newobj_empty: call void Cases::newobj_empty() ret
    newobj_null: call void Cases::newobj_null() ret
    ret_none: call void Cases::ret_none() ret
    ret_two: call void Cases::ret_two() ret
    ret_null: call void Cases::ret_null() ret
    ret_struct: call void Cases::ret_struct() ret
    throw_empty: call void Cases::throw_empty() ret
    throw_object: call void Cases::throw_object() ret
    rethrow_in_try: call void Cases::rethrow_in_try() ret
    rethrow_in_finally: call void Cases::rethrow_in_finally() ret
    castclass_pointer: call void Cases::castclass_pointer() ret
    isinst_number: call void Cases::isinst_number() ret
    box_empty: call void Cases::box_empty() ret
    box_null: call void Cases::box_null() ret
    box_struct: call void Cases::box_struct() ret
    box_number: call void Cases::box_number() ret
    unbox_class: call void Cases::unbox_class() ret
    unbox_pointer: call void Cases::unbox_pointer() ret
    unbox_any_number: call void Cases::unbox_any_number() ret
    ldfld_other: call void Cases::ldfld_other() ret
    ldfld_pointer: call void Cases::ldfld_pointer() ret
    ldfld_struct: call void Cases::ldfld_struct() ret
    ldfld_number: call void Cases::ldfld_number() ret
    ldfld_empty: call void Cases::ldfld_empty() ret
    ldflda_struct: call void Cases::ldflda_struct() ret
    stfld_struct: call void Cases::stfld_struct() ret
    stfld_null: call void Cases::stfld_null() ret
    stfld_one: call void Cases::stfld_one() ret
    ldsfld_instance: call void Cases::ldsfld_instance() ret
    ldsflda_instance: call void Cases::ldsflda_instance() ret
    stsfld_instance: call void Cases::stsfld_instance() ret
    ldsfld_literal: call void Cases::ldsfld_literal() ret
    stsfld_null: call void Cases::stsfld_null() ret
    stsfld_struct: call void Cases::stsfld_struct() ret
    newarr_int64: call void Cases::newarr_int64() ret
    ldlen_object: call void Cases::ldlen_object() ret
    ldelem_i4_int64: call void Cases::ldelem_i4_int64() ret
    ldelem_ref_int32: call void Cases::ldelem_ref_int32() ret
    ldelem_i8_objects: call void Cases::ldelem_i8_objects() ret
    ldelem_struct: call void Cases::ldelem_struct() ret
    ldelem_index_null: call void Cases::ldelem_index_null() ret
    ldelem_index_int64: call void Cases::ldelem_index_int64() ret
    ldelem_one: call void Cases::ldelem_one() ret
    ldelema_object: call void Cases::ldelema_object() ret
    ldelema_index: call void Cases::ldelema_index() ret
    stelem_i4_int64: call void Cases::stelem_i4_int64() ret
    stelem_i4_value: call void Cases::stelem_i4_value() ret
    stelem_ref_int32: call void Cases::stelem_ref_int32() ret
    stelem_ref_number: call void Cases::stelem_ref_number() ret
    stelem_struct: call void Cases::stelem_struct() ret
    stelem_two: call void Cases::stelem_two() ret
    ldind_i8_int32: call void Cases::ldind_i8_int32() ret
    ldind_ref_int32: call void Cases::ldind_ref_int32() ret
    ldind_i4_object: call void Cases::ldind_i4_object() ret
    ldind_i4_struct: call void Cases::ldind_i4_struct() ret
    ldind_on_object: call void Cases::ldind_on_object() ret
    ldobj_other: call void Cases::ldobj_other() ret
    stobj_other: call void Cases::stobj_other() ret
    stobj_value: call void Cases::stobj_value() ret
    cpobj_source: call void Cases::cpobj_source() ret
    cpobj_number: call void Cases::cpobj_number() ret
    cpobj_one: call void Cases::cpobj_one() ret
    initobj_other: call void Cases::initobj_other() ret
    initobj_empty: call void Cases::initobj_empty() ret
    stind_i4_int64: call void Cases::stind_i4_int64() ret
    stind_ref_number: call void Cases::stind_ref_number() ret
    stind_ref_int32: call void Cases::stind_ref_int32() ret
    stind_one: call void Cases::stind_one() ret
  }

  // arguments and locals: a slot that isn't there, no value, a value that doesn't fit
  .method static void ldarga_none() { AT: ldarga 0 pop ret }
  .method static void ldloca_none() { AT: ldloca 0 pop ret }
  .method static void stloc_empty() { .locals init (int32 x) AT: stloc.0 ret }
  .method static void stloc_int64() { .locals init (int32 x) ldc.i8 1 AT: stloc.0 ret }
  .method static void stloc_null() { .locals init (int32 x) ldnull AT: stloc.0 ret }
  .method static void stloc_number() { .locals init (object x) ldc.i4.0 AT: stloc.0 ret }
  .method static void stloc_struct() { .locals init (valuetype A a, valuetype B b) ldloc.1 AT: stloc.0 ret }
  .method static void stloc_native() { .locals init (int64 x) ldc.i4.0 conv.i AT: stloc.0 ret }
  .method static void stloc_long() { .locals init (native int x) ldc.i8 1 AT: stloc.0 ret }
  .method static void stloc_pointer() { .locals init (object x, int32 y) ldloca.s y AT: stloc.0 ret }
  .method static void stloc_object() { .locals init (int32& x) ldstr "x" AT: stloc.0 ret }
  .method static void starg_int64() { ldc.i4.0 call void Cases::starg_int64_in(int32) ret }
  .method static void starg_int64_in(int32 x) { ldc.i8 1 AT: starg.s x ret }

  // branches: no operand, and kinds of operands
  .method static void brtrue_empty() { AT: brtrue.s E E: ret }
  .method static void brtrue_struct() { .locals init (valuetype A a, valuetype B b) ldloc.0 AT: brtrue.s E E: ret }
  .method static void brfalse_handle() { ldtoken Plain AT: brfalse.s E E: ret }
  .method static void beq_one() { ldc.i4.0 AT: beq.s E E: ret }
  .method static void beq_kinds() { ldc.i4.0 ldc.i8 0 AT: beq.s E E: ret }
  .method static void beq_null() { ldc.i4.0 ldnull AT: beq.s E E: ret }
  .method static void bge_references() { ldnull ldnull AT: bge.s E E: ret }
  .method static void blt_un_references() { ldnull ldnull AT: blt.un.s E E: ret }
  .method static void bgt_pointers() { .locals init (int32 x) ldloca.s x ldloca.s x AT: bgt.s E E: ret }
  .method static void bne_un_pointer() { .locals init (int32 x) ldstr "x" ldloca.s x AT: bne.un.s E E: ret }
  .method static void switch_empty() { AT: switch (E) E: ret }
  .method static void switch_int64() { ldc.i8 0 AT: switch (E) E: ret }
  .method static void switch_native() { ldc.i4.0 conv.i AT: switch (E) E: ret }

  // blocks: what leaves or enters one other than by leave, throw and endfinally
  .method static void try_branch() { T0: nop AT: br.s E T1: H0: endfinally H1: E: ret .try T0 to T1 finally handler H0 to H1 }
  .method static void try_condition() { T0: ldc.i4.1 AT: brtrue.s E leave.s E T1: H0: endfinally H1: E: ret .try T0 to T1 finally handler H0 to H1 }
  .method static void try_switch() { T0: ldc.i4.0 AT: switch (E) leave.s E T1: H0: endfinally H1: E: ret .try T0 to T1 finally handler H0 to H1 }
  .method static void try_fall() { T0: nop AT: nop T1: H0: endfinally H1: ret .try T0 to T1 finally handler H0 to H1 }
  .method static void try_ret() { T0: nop AT: ret T1: H0: endfinally H1: ret .try T0 to T1 finally handler H0 to H1 }
  .method static void try_prefix() { T0: nop AT: volatile. T1: H0: endfinally H1: ret .try T0 to T1 finally handler H0 to H1 }
  .method static void try_core_call() { T0: ldstr "x" AT: call void [mscorlib]System.Console::WriteLine(string) T1: H0: endfinally H1: ret .try T0 to T1 finally handler H0 to H1 }
  .method static void try_call() { T0: call void Cases::try_call_in() T1: H0: endfinally H1: ret .try T0 to T1 finally handler H0 to H1 }
  .method static void try_call_in() { nop AT: ret }
  .method static void try_endfinally() { T0: nop AT: endfinally T1: H0: endfinally H1: ret .try T0 to T1 finally handler H0 to H1 }
  .method static void finally_ret() { T0: leave.s E T1: H0: AT: ret H1: E: ret .try T0 to T1 finally handler H0 to H1 }
  .method static void finally_branch() { T0: leave.s E T1: H0: AT: br.s E H1: E: ret .try T0 to T1 finally handler H0 to H1 }
  .method static void finally_fall() { T0: leave.s E T1: H0: AT: nop H1: E: ret .try T0 to T1 finally handler H0 to H1 }
  .method static void finally_leave() { T0: leave.s E T1: H0: AT: leave.s E H1: E: ret .try T0 to T1 finally handler H0 to H1 }
  .method static void finally_begun() { H0: AT: endfinally H1: T0: leave.s E T1: E: ret .try T0 to T1 finally handler H0 to H1 }
  .method static void finally_entered() { AT: br.s H T0: leave.s E T1: H0: nop H: endfinally H1: E: ret .try T0 to T1 finally handler H0 to H1 }
  .method static void finally_fallen() { T0: leave.s E T1: E: AT: nop H0: endfinally H1: ret .try T0 to T1 finally handler H0 to H1 }
  .method static void finally_left() { T0: nop AT: leave.s H T1: H0: nop H: endfinally H1: ret .try T0 to T1 finally handler H0 to H1 }
  .method static void fault_leave() { T0: call void Cases::fault_leave_in() leave.s E T1: H0: pop leave.s E H1: E: ret .try T0 to T1 catch [mscorlib]System.Exception handler H0 to H1 }
  .method static void fault_leave_in() { T0: newobj instance void [mscorlib]System.Exception::.ctor() throw T1: H0: AT: leave.s E H1: E: ret .try T0 to T1 fault handler H0 to H1 }
  .method static void catch_ret() { T0: newobj instance void [mscorlib]System.Exception::.ctor() throw T1: H0: pop AT: ret H1: .try T0 to T1 catch [mscorlib]System.Exception handler H0 to H1 }
  .method static void catch_branch() { T0: newobj instance void [mscorlib]System.Exception::.ctor() throw T1: H0: pop AT: br.s E H1: E: ret .try T0 to T1 catch [mscorlib]System.Exception handler H0 to H1 }
  .method static void catch_fall() { T0: newobj instance void [mscorlib]System.Exception::.ctor() throw T1: H0: AT: pop H1: ret .try T0 to T1 catch [mscorlib]System.Exception handler H0 to H1 }
  .method static void catch_endfinally() { T0: newobj instance void [mscorlib]System.Exception::.ctor() throw T1: H0: pop AT: endfinally H1: ret .try T0 to T1 catch [mscorlib]System.Exception handler H0 to H1 }
  .method static void catch_entered() { ldnull AT: br.s H0 T0: leave.s E T1: H0: pop leave.s E H1: E: ret .try T0 to T1 catch [mscorlib]System.Exception handler H0 to H1 }

  // arithmetic, comparisons and conversions: kinds of operands
  .method static void add_kinds() { ldc.i4.0 ldc.i8 0 AT: add pop ret }
  .method static void add_object() { ldstr "x" ldc.i4.0 AT: add pop ret }
  .method static void add_pointer() { .locals init (int32 x) ldloca.s x ldc.i4.0 AT: add pop ret }
  .method static void sub_pointers() { .locals init (int32 x) ldloca.s x ldloca.s x AT: sub pop ret }
  .method static void mul_native() { ldc.i4.0 conv.i ldc.i8 0 AT: mul pop ret }
  .method static void div_un_null() { ldc.i4.0 ldnull AT: div.un pop ret }
  .method static void rem_structs() { .locals init (valuetype A a, valuetype B b) ldloc.0 ldloc.0 AT: rem pop ret }
  .method static void and_references() { ldnull ldnull AT: and pop ret }
  .method static void add_ovf_null() { ldnull ldnull AT: add.ovf pop ret }
  .method static void add_one() { ldc.i4.0 AT: add pop ret }
  .method static void shl_int64() { ldc.i4.0 ldc.i8 0 AT: shl pop ret }
  .method static void shl_null() { ldnull ldc.i4.0 AT: shl pop ret }
  .method static void shr_un_pointer() { .locals init (int32 x) ldloca.s x ldc.i4.0 AT: shr.un pop ret }
  .method static void ceq_kinds() { ldc.i4.0 ldc.i8 0 AT: ceq pop ret }
  .method static void ceq_object() { ldc.i4.0 ldstr "x" AT: ceq pop ret }
  .method static void ceq_structs() { .locals init (valuetype A a, valuetype B b) ldloc.0 ldloc.0 AT: ceq pop ret }
  .method static void ceq_handles() { ldtoken Plain ldtoken Plain AT: ceq pop ret }
  .method static void cgt_references() { ldnull ldnull AT: cgt pop ret }
  .method static void clt_pointers() { .locals init (int32 x) ldloca.s x ldloca.s x AT: clt pop ret }
  .method static void ceq_one() { ldnull AT: ceq pop ret }
  .method static void neg_pointer() { .locals init (int32 x) ldloca.s x AT: neg pop ret }
  .method static void not_struct() { .locals init (valuetype A a, valuetype B b) ldloc.0 AT: not pop ret }
  .method static void neg_empty() { AT: neg pop ret }
  .method static void conv_i_pointer() { .locals init (int32 x) ldloca.s x AT: conv.i pop ret }
  .method static void conv_ovf_i4_object() { ldstr "x" AT: conv.ovf.i4 pop ret }
  .method static void conv_u8_struct() { .locals init (valuetype A a, valuetype B b) ldloc.0 AT: conv.u8 pop ret }
  .method static void conv_i8_empty() { AT: conv.i8 pop ret }

  // calls: receivers, arguments, what is called and what is found
  .method static void call_abstract() { newobj instance void Broken::.ctor() AT: call instance void Partial::Missing() ret }
  .method static void callvirt_abstract() { newobj instance void Broken::.ctor() AT: callvirt instance void Partial::Missing() ret }
  .method static void callvirt_none() { newobj instance void Other::.ctor() AT: callvirt instance void Plain::Slot() ret }
  .method static void callvirt_interface() { newobj instance void Other::.ctor() AT: callvirt instance void IDo::Do() ret }
  .method static void callvirt_form() { newobj instance void Odd::.ctor() AT: callvirt instance void Plain::Slot() ret }
  .method static void call_empty() { AT: call instance void Plain::Act() ret }
  .method static void call_number() { ldc.i4.0 AT: call instance void Plain::Act() ret }
  .method static void call_pointer() { .locals init (int32 x) ldloca.s x AT: call instance void Plain::Act() ret }
  .method static void call_struct() { .locals init (valuetype A a, valuetype B b) ldloc.0 AT: call instance void A::Act() ret }
  .method static void call_object() { newobj instance void Plain::.ctor() AT: call instance void A::Act() ret }
  .method static void callvirt_number() { ldc.i4.0 AT: callvirt instance void Plain::Slot() ret }
  .method static void callvirt_pointer() { .locals init (valuetype A a, valuetype B b) ldloca.s a AT: callvirt instance string object::ToString() pop ret }
  .method static void constrained_object() { newobj instance void Plain::.ctor() constrained. A AT: callvirt instance string object::ToString() pop ret }
  .method static void constrained_other() { .locals init (valuetype A a, valuetype B b) ldloca.s b constrained. A AT: callvirt instance string object::ToString() pop ret }
  .method static void argument_int64() { ldc.i8 0 AT: call void Cases::take_int(int32) ret }
  .method static void argument_null() { ldnull AT: call void Cases::take_int(int32) ret }
  .method static void argument_struct() { .locals init (valuetype A a, valuetype B b) ldloc.1 AT: call void Cases::take_a(valuetype A) ret }
  .method static void core_argument() { newobj instance void Plain::.ctor() AT: call void [mscorlib]System.Console::WriteLine(string) ret }
  .method static void core_receiver() { newobj instance void Plain::.ctor() AT: callvirt instance class [mscorlib]System.Exception [mscorlib]System.Exception::get_InnerException() pop ret }
  .method static void core_number() { .locals init (int64 x) ldloca.s x ldc.i4.0 AT: call instance bool [mscorlib]System.Int32::Equals(int32) pop ret }
  .method static void newobj_abstract() { AT: newobj instance void Partial::.ctor() pop ret }
  .method static void newobj_empty() { AT: newobj instance void A::.ctor(int32) pop ret }
  .method static void newobj_null() { ldnull AT: newobj instance void A::.ctor(int32) pop ret }
  .method static void ret_none() { call int32 Cases::ret_none_in() pop ret }
  .method static int32 ret_none_in() { nop AT: ret }
  .method static void ret_two() { call int32 Cases::ret_two_in() pop ret }
  .method static int32 ret_two_in() { ldc.i4.0 ldc.i4.0 AT: ret }
  .method static void ret_null() { call int32 Cases::ret_null_in() pop ret }
  .method static int32 ret_null_in() { ldnull AT: ret }
  .method static void ret_struct() { call valuetype A Cases::ret_struct_in() pop ret }
  .method static valuetype A ret_struct_in() { .locals init (valuetype A a, valuetype B b) ldloc.1 AT: ret }

  // throws
  .method static void throw_empty() { AT: throw }
  .method static void throw_object() { newobj instance void Plain::.ctor() AT: throw }
  .method static void rethrow_in_try() { T0: AT: rethrow T1: H0: pop leave.s E H1: E: ret .try T0 to T1 catch [mscorlib]System.Exception handler H0 to H1 }
  .method static void rethrow_in_finally() { T0: leave.s E T1: H0: AT: rethrow H1: E: ret .try T0 to T1 finally handler H0 to H1 }

  // casts and boxes
  .method static void castclass_pointer() { .locals init (int32 x) ldloca.s x AT: castclass Plain pop ret }
  .method static void isinst_number() { ldc.i4.0 AT: isinst Plain pop ret }
  .method static void box_empty() { AT: box A pop ret }
  .method static void box_null() { ldnull AT: box [mscorlib]System.Int32 pop ret }
  .method static void box_struct() { .locals init (valuetype A a, valuetype B b) ldloc.1 AT: box A pop ret }
  .method static void box_number() { ldc.i4.0 AT: box Plain pop ret }
  .method static void unbox_class() { newobj instance void Plain::.ctor() AT: unbox Plain pop ret }
  .method static void unbox_pointer() { .locals init (valuetype A a, valuetype B b) ldloca.s a AT: unbox A pop ret }
  .method static void unbox_any_number() { ldc.i4.0 AT: unbox.any [mscorlib]System.Int32 pop ret }

  // fields
  .method static void ldfld_other() { newobj instance void Other::.ctor() AT: ldfld int32 Plain::N pop ret }
  .method static void ldfld_pointer() { .locals init (valuetype A a, valuetype B b) ldloca.s b AT: ldfld int32 A::X pop ret }
  .method static void ldfld_struct() { .locals init (valuetype A a, valuetype B b) ldloc.1 AT: ldfld int32 A::X pop ret }
  .method static void ldfld_number() { ldc.i4.0 AT: ldfld int32 Plain::N pop ret }
  .method static void ldfld_empty() { AT: ldfld int32 Plain::N pop ret }
  .method static void ldflda_struct() { .locals init (valuetype A a, valuetype B b) ldloc.0 AT: ldflda int32 A::X pop ret }
  .method static void stfld_struct() { .locals init (valuetype A a, valuetype B b) ldloc.0 ldc.i4.0 AT: stfld int32 A::X ret }
  .method static void stfld_null() { newobj instance void Plain::.ctor() ldnull AT: stfld int32 Plain::N ret }
  .method static void stfld_one() { ldc.i4.0 AT: stfld int32 Plain::N ret }
  .method static void ldsfld_instance() { AT: ldsfld int32 Plain::N pop ret }
  .method static void ldsflda_instance() { AT: ldsflda int32 Plain::N pop ret }
  .method static void stsfld_instance() { ldc.i4.0 AT: stsfld int32 Plain::N ret }
  .method static void ldsfld_literal() { AT: ldsfld int32 Plain::Five pop ret }
  .method static void stsfld_null() { ldnull AT: stsfld int32 Plain::Count ret }
  .method static void stsfld_struct() { .locals init (valuetype A a, valuetype B b) ldloc.1 AT: stsfld valuetype A Plain::Only ret }

  // arrays
  .method static void newarr_int64() { ldc.i8 1 AT: newarr A pop ret }
  .method static void ldlen_object() { newobj instance void Plain::.ctor() AT: ldlen pop ret }
  .method static void ldelem_i4_int64() { ldc.i4.1 newarr [mscorlib]System.Int64 ldc.i4.0 AT: ldelem.i4 pop ret }
  .method static void ldelem_ref_int32() { ldc.i4.1 newarr [mscorlib]System.Int32 ldc.i4.0 AT: ldelem.ref pop ret }
  .method static void ldelem_i8_objects() { ldc.i4.1 newarr [mscorlib]System.Object ldc.i4.0 AT: ldelem.i8 pop ret }
  .method static void ldelem_struct() { ldc.i4.1 newarr A ldc.i4.0 AT: ldelem B pop ret }
  .method static void ldelem_index_null() { ldc.i4.1 newarr [mscorlib]System.Int32 ldnull AT: ldelem.i4 pop ret }
  .method static void ldelem_index_int64() { ldc.i4.1 newarr [mscorlib]System.Int32 ldc.i8 0 AT: ldelem.i4 pop ret }
  .method static void ldelem_one() { ldc.i4.0 AT: ldelem.i4 pop ret }
  .method static void ldelema_object() { newobj instance void Plain::.ctor() ldc.i4.0 AT: ldelema A pop ret }
  .method static void ldelema_index() { ldc.i4.1 newarr A ldc.i8 0 AT: ldelema A pop ret }
  .method static void stelem_i4_int64() { ldc.i4.1 newarr [mscorlib]System.Int64 ldc.i4.0 ldc.i4.0 AT: stelem.i4 ret }
  .method static void stelem_i4_value() { ldc.i4.1 newarr [mscorlib]System.Int32 ldc.i4.0 ldc.i8 0 AT: stelem.i4 ret }
  .method static void stelem_ref_int32() { ldc.i4.1 newarr [mscorlib]System.Int32 ldc.i4.0 ldnull AT: stelem.ref ret }
  .method static void stelem_ref_number() { ldc.i4.1 newarr [mscorlib]System.Object ldc.i4.0 ldc.i4.0 AT: stelem.ref ret }
  .method static void stelem_struct() { .locals init (valuetype A a, valuetype B b) ldc.i4.1 newarr A ldc.i4.0 ldloc.1 AT: stelem A ret }
  .method static void stelem_two() { ldc.i4.0 ldc.i4.0 AT: stelem.i4 ret }

  // pointers
  .method static void ldind_i8_int32() { .locals init (int32 x) ldloca.s x AT: ldind.i8 pop ret }
  .method static void ldind_ref_int32() { .locals init (int32 x) ldloca.s x AT: ldind.ref pop ret }
  .method static void ldind_i4_object() { .locals init (object x) ldloca.s x AT: ldind.i4 pop ret }
  .method static void ldind_i4_struct() { .locals init (valuetype A a, valuetype B b) ldloca.s a AT: ldind.i4 pop ret }
  .method static void ldind_on_object() { newobj instance void Plain::.ctor() AT: ldind.ref pop ret }
  .method static void ldobj_other() { .locals init (valuetype A a, valuetype B b) ldloca.s b AT: ldobj A pop ret }
  .method static void stobj_other() { .locals init (valuetype A a, valuetype B b) ldloca.s b ldloc.0 AT: stobj A ret }
  .method static void stobj_value() { .locals init (valuetype A a, valuetype B b) ldloca.s a ldloc.1 AT: stobj A ret }
  .method static void cpobj_source() { .locals init (valuetype A a, valuetype B b) ldloca.s a ldloca.s b AT: cpobj A ret }
  .method static void cpobj_number() { .locals init (valuetype A a, valuetype B b) ldc.i4.0 ldloca.s a AT: cpobj A ret }
  .method static void cpobj_one() { .locals init (valuetype A a, valuetype B b) ldloca.s a AT: cpobj A ret }
  .method static void initobj_other() { .locals init (valuetype A a, valuetype B b) ldloca.s b AT: initobj A ret }
  .method static void initobj_empty() { AT: initobj A ret }
  .method static void stind_i4_int64() { .locals init (int32 x) ldloca.s x ldc.i8 0 AT: stind.i4 ret }
  .method static void stind_ref_number() { .locals init (object x) ldloca.s x ldc.i4.0 AT: stind.ref ret }
  .method static void stind_ref_int32() { .locals init (int32 x) ldloca.s x ldnull AT: stind.ref ret }
  .method static void stind_one() { ldc.i4.0 AT: stind.i4 ret }
}
