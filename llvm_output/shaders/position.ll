; A vertex shader: a position and a parameter are exported.
define amdgpu_vs void @position(<4 x float> inreg %reserved, <4 x float> inreg %place, <4 x float> inreg %colour) {
  call void @llvm.r600.store.swizzle(<4 x float> %place, i32 60, i32 1)
  call void @llvm.r600.store.swizzle(<4 x float> %colour, i32 0, i32 2)
  ret void
}

declare void @llvm.r600.store.swizzle(<4 x float>, i32, i32)
