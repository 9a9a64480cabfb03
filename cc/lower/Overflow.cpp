// `__builtin_add_overflow` and its like: the sum, difference or product, and
// whether it is another number than the exact one.
#include "Words.h"

using namespace llvm;

namespace lower {

// The signs that the exact number can't have: of a sum the other one than both
// operands have, of a difference another one than X where Y's is other.
Value *signsOverflow(Builder &B, bool IsAdd, Value *X, Value *Y,
                     Value *Result) {
  Value *One = IsAdd ? B.CreateXor(Result, X) : B.CreateXor(X, Y);
  Value *Other = IsAdd ? B.CreateXor(Result, Y) : B.CreateXor(Result, X);
  return B.CreateICmpSLT(B.CreateAnd(One, Other),
                         Constant::getNullValue(X->getType()));
}

// The flag of a sum or a difference hangs on all bits of both operands, by the
// signs or by a comparison, so it is unset where an unset bit may change it.
static Value *sumOverflows(Builder &B, WithOverflowInst &I, Value *Sum) {
  Value *X = I.getLHS(), *Y = I.getRHS();
  bool IsAdd = I.getBinaryOp() == Instruction::Add;
  if (I.isSigned())
    return signsOverflow(B, IsAdd, X, Y, Sum);
  return IsAdd ? B.CreateICmpULT(Sum, X) : B.CreateICmpULT(X, Y);
}

// No branch, no division and no shift by other than a constant, so that
// nothing is a blind use.
static Value *productOverflows(Builder &B, WithOverflowInst &I,
                               Value *Product) {
  unsigned Width = Product->getType()->getIntegerBitWidth();
  Type *Word = B.getInt64Ty();
  auto Wide = [&](Value *V) {
    return I.isSigned() ? B.CreateSExt(V, Word) : B.CreateZExt(V, Word);
  };
  Value *X = Wide(I.getLHS()), *Y = Wide(I.getRHS());
  if (Width <= 32)
    return B.CreateICmpNE(B.CreateMul(X, Y), Wide(Product));
  Value *Upper = upperWord(B, X, Y), *Expected = B.getInt64(0);
  if (I.isSigned()) { // less what a negative factor adds to the upper word
    auto IfNegative = [&](Value *Sign, Value *Then) {
      return B.CreateAnd(B.CreateAShr(Sign, 63), Then);
    };
    Upper = B.CreateSub(B.CreateSub(Upper, IfNegative(X, Y)), IfNegative(Y, X));
    Expected = B.CreateAShr(B.CreateMul(X, Y), 63);
  }
  Value *IsWider = B.CreateICmpNE(Upper, Expected);
  if (Width == 64)
    return IsWider;
  return B.CreateOr(IsWider, B.CreateICmpNE(B.CreateMul(X, Y), Wide(Product)));
}

// The product in twice as many words, which hold the exact one; and whether the
// half of them is another number.
bool PartsLowering::wideProduct(WithOverflowInst &I) {
  Builder B(&I);
  bool IsSigned = I.isSigned();
  Type *T = I.getLHS()->getType();
  Values X = words(B, parts(I.getLHS()), IsSigned);
  Values Y = words(B, parts(I.getRHS()), IsSigned);
  size_t Count = 2 * X.size();
  Values Exact = multiply(B, extended(B, X, Count, IsSigned),
                          extended(B, Y, Count, IsSigned));
  Values Made = fromWords(B, Exact, T);
  Values Again = extended(B, words(B, Made, IsSigned), Count, IsSigned);
  Made.push_back(isEqual(B, ICmpInst::ICMP_NE, Exact, Again));
  return made(I, Made);
}

// The sum or difference in words, and whether it is another number than the
// exact one: by the signs, or by a comparison, as of one word.
bool PartsLowering::wideOverflow(WithOverflowInst &I) {
  if (I.getBinaryOp() == Instruction::Mul)
    return wideProduct(I);
  Builder B(&I);
  Type *T = I.getLHS()->getType();
  Values X = words(B, parts(I.getLHS()), false);
  Values Y = words(B, parts(I.getRHS()), false);
  bool IsAdd = I.getBinaryOp() == Instruction::Add;
  Values Made = fromWords(B, IsAdd ? add(B, X, Y) : subtract(B, X, Y), T);
  if (I.isSigned())
    Made.push_back(signsOverflow(B, IsAdd, parts(I.getLHS()).back(),
                                 parts(I.getRHS()).back(), Made.back()));
  else
    Made.push_back(isLess(B, ICmpInst::ICMP_ULT,
                          IsAdd ? words(B, Made, false) : X, IsAdd ? X : Y));
  return made(I, Made);
}

bool PartsLowering::visitIntrinsicInst(IntrinsicInst &I) {
  auto *Call = dyn_cast<WithOverflowInst>(&I);
  if (!Call)
    return false;
  if (isInParts(Call->getLHS()->getType()))
    return wideOverflow(*Call);
  Builder B(&I);
  Value *Result =
      B.CreateBinOp(Call->getBinaryOp(), Call->getLHS(), Call->getRHS());
  Value *IsOver = Call->getBinaryOp() == Instruction::Mul
                      ? productOverflows(B, *Call, Result)
                      : sumOverflows(B, *Call, Result);
  return made(I, {Result, IsOver});
}

} // namespace lower
