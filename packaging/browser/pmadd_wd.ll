
; packaging/page: what the processor's instruction pmaddwd does, lane by lane, in place of the call of that instruction
define internal <4 x i32> @pmadd_wd(<8 x i16> %left, <8 x i16> %right) alwaysinline {
  %lefts = sext <8 x i16> %left to <8 x i32>
  %rights = sext <8 x i16> %right to <8 x i32>
  %products = mul <8 x i32> %lefts, %rights
  %even = shufflevector <8 x i32> %products, <8 x i32> poison, <4 x i32> <i32 0, i32 2, i32 4, i32 6>
  %odd = shufflevector <8 x i32> %products, <8 x i32> poison, <4 x i32> <i32 1, i32 3, i32 5, i32 7>
  %sums = add <4 x i32> %even, %odd
  ret <4 x i32> %sums
}
