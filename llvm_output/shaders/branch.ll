; A branch with much on either side, so that it stays a branch: which of two textures is sampled goes by the first channel.
define amdgpu_ps void @branch(<4 x float> inreg %where) {
entry:
  %x = extractelement <4 x float> %where, i32 0
  %left = fcmp olt float %x, 5.000000e-01
  br i1 %left, label %near, label %far

near:
  %a = call <4 x float> @llvm.r600.tex(<4 x float> %where, i32 0, i32 0, i32 0, i32 0, i32 0, i32 1, i32 1, i32 1, i32 1)
  br label %done

far:
  %b = call <4 x float> @llvm.r600.tex(<4 x float> %where, i32 0, i32 0, i32 0, i32 1, i32 1, i32 1, i32 1, i32 1, i32 1)
  br label %done

done:
  %colour = phi <4 x float> [ %a, %near ], [ %b, %far ]
  call void @llvm.r600.store.swizzle(<4 x float> %colour, i32 0, i32 0)
  ret void
}

declare <4 x float> @llvm.r600.tex(<4 x float>, i32, i32, i32, i32, i32, i32, i32, i32, i32)
declare void @llvm.r600.store.swizzle(<4 x float>, i32, i32)
