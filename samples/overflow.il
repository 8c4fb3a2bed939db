// The greatest int32 plus 1 wraps to the least one.
.assembly extern mscorlib { .ver 4:3:1:0 }
.assembly Overflow { .ver 1:0:0:0 }
.module Overflow.dll
.class public abstract sealed Program extends [mscorlib]System.Object
{
  .method public static int32 Main() cil managed
  {
    .entrypoint
    .maxstack 2
    ldc.i4 2147483647
    ldc.i4.1
    add
    ret
  }
}
