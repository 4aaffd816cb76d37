; A choice between two numbers, which becomes a conditional move of integers.
define amdgpu_ps void @select(<4 x float> inreg %a, <4 x float> inreg %b) {
  %x = extractelement <4 x float> %a, i32 0
  %y = extractelement <4 x float> %b, i32 0
  %i = bitcast float %x to i32
  %j = bitcast float %y to i32
  %less = icmp slt i32 %i, %j
  %k = select i1 %less, i32 %i, i32 7
  %out = bitcast i32 %k to float
  %colour = insertelement <4 x float> %a, float %out, i32 0
  call void @llvm.r600.store.swizzle(<4 x float> %colour, i32 0, i32 0)
  ret void
}

declare void @llvm.r600.store.swizzle(<4 x float>, i32, i32)
