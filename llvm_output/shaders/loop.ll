; A loop whose number of rounds is not known: the colour is halved until its first channel is small.
define amdgpu_ps void @loop(<4 x float> inreg %colour) {
entry:
  %start = extractelement <4 x float> %colour, i32 0
  br label %round

round:
  %x = phi float [ %start, %entry ], [ %half, %round ]
  %half = fmul float %x, 5.000000e-01
  %again = fcmp ogt float %half, 1.250000e-01
  br i1 %again, label %round, label %done

done:
  %out = insertelement <4 x float> %colour, float %half, i32 0
  call void @llvm.r600.store.swizzle(<4 x float> %out, i32 0, i32 0)
  ret void
}

declare void @llvm.r600.store.swizzle(<4 x float>, i32, i32)
