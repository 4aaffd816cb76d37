; Integer sums of all four channels, twice: eight additions, of which the compiler puts one into Trans.
define amdgpu_ps void @integers(<4 x float> inreg %a, <4 x float> inreg %b) {
  %i = bitcast <4 x float> %a to <4 x i32>
  %j = bitcast <4 x float> %b to <4 x i32>
  %sum = add <4 x i32> %i, %j
  %twice = add <4 x i32> %sum, %i
  %out = bitcast <4 x i32> %twice to <4 x float>
  call void @llvm.r600.store.swizzle(<4 x float> %out, i32 0, i32 0)
  ret void
}

declare void @llvm.r600.store.swizzle(<4 x float>, i32, i32)
