; Two small branches one behind the other, which the compiler turns into predicated instructions of one clause, and a texture fetch
; under a third.
define amdgpu_ps void @two_choices(<4 x float> inreg %where) {
entry:
  %x = extractelement <4 x float> %where, i32 0
  %y = extractelement <4 x float> %where, i32 1
  %z = extractelement <4 x float> %where, i32 2
  %first = fcmp olt float %x, 5.000000e-01
  br i1 %first, label %low, label %next

low:
  %sx = fmul float %x, 3.000000e+00
  %tx = fadd float %sx, %y
  br label %next

next:
  %px = phi float [ %x, %entry ], [ %tx, %low ]
  %second = fcmp olt float %y, 2.500000e-01
  br i1 %second, label %near, label %third

near:
  %sy = fmul float %y, 5.000000e+00
  %ty = fadd float %sy, %px
  br label %third

third:
  %py = phi float [ %y, %next ], [ %ty, %near ]
  %deep = fcmp olt float %z, 1.250000e-01
  br i1 %deep, label %sample, label %done

sample:
  %at = insertelement <4 x float> %where, float %px, i32 0
  %colour = call <4 x float> @llvm.r600.tex(<4 x float> %at, i32 0, i32 0, i32 0, i32 0, i32 0, i32 1, i32 1, i32 1, i32 1)
  br label %done

done:
  %c = phi <4 x float> [ %where, %third ], [ %colour, %sample ]
  %d = insertelement <4 x float> %c, float %py, i32 1
  call void @llvm.r600.store.swizzle(<4 x float> %d, i32 0, i32 0)
  ret void
}

declare <4 x float> @llvm.r600.tex(<4 x float>, i32, i32, i32, i32, i32, i32, i32, i32, i32)
declare void @llvm.r600.store.swizzle(<4 x float>, i32, i32)
