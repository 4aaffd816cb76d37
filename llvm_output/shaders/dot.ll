; A dot product of two inputs in every channel.
define amdgpu_ps void @dot(<4 x float> inreg %a, <4 x float> inreg %b) {
  %d = call float @llvm.r600.dot4(<4 x float> %a, <4 x float> %b)
  %x = insertelement <4 x float> undef, float %d, i32 0
  %y = insertelement <4 x float> %x, float %d, i32 1
  %z = insertelement <4 x float> %y, float %d, i32 2
  %w = insertelement <4 x float> %z, float %d, i32 3
  call void @llvm.r600.store.swizzle(<4 x float> %w, i32 0, i32 0)
  ret void
}

declare float @llvm.r600.dot4(<4 x float>, <4 x float>)
declare void @llvm.r600.store.swizzle(<4 x float>, i32, i32)
