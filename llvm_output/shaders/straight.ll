; A pixel shader without branches: the colour is scaled and shifted.
define amdgpu_ps void @straight(<4 x float> inreg %colour, <4 x float> inreg %scale) {
  %scaled = fmul <4 x float> %colour, %scale
  %sum = fadd <4 x float> %scaled, <float 0.25, float 0.5, float 0.75, float 1.0>
  call void @llvm.r600.store.swizzle(<4 x float> %sum, i32 0, i32 0)
  ret void
}

declare void @llvm.r600.store.swizzle(<4 x float>, i32, i32)
