// Numbers as words of 64 bits, the lowest first.
//
// Bits stay what they are in operations on each bit, shifts by constants,
// truncations and extensions, so their masks do. A sum, a difference or a
// product has each bit unset above the lowest unset one of its operands, here
// too: a carry is a comparison of words that have these bits.
#include "Words.h"

using namespace llvm;

namespace lower {

static Type *topOf(Type *T) {
  unsigned Rest = T->getIntegerBitWidth() % 64;
  return IntegerType::get(T->getContext(), Rest ? Rest : 64);
}

// As words of 64 bits: the top one is extended.
Values words(Builder &B, Values Parts, bool IsSigned) {
  Values::value_type &Top = Parts.back();
  if (Top->getType() != B.getInt64Ty())
    Top = IsSigned ? B.CreateSExt(Top, B.getInt64Ty())
                   : B.CreateZExt(Top, B.getInt64Ty());
  return Parts;
}

// More words of the same number.
Values extended(Builder &B, Values Words, size_t Count, bool IsSigned) {
  Value *Fill = B.getInt64(0);
  if (IsSigned && Words.size() < Count)
    Fill = B.CreateAShr(Words.back(), 63);
  Words.resize(std::max(Count, Words.size()), Fill);
  return Words;
}

// The parts of a type, from at least as many words.
Values fromWords(Builder &B, Values Words, Type *T) {
  Words.resize((T->getIntegerBitWidth() + 63) / 64);
  if (topOf(T) != B.getInt64Ty())
    Words.back() = B.CreateTrunc(Words.back(), topOf(T));
  return Words;
}

Values eachBit(Builder &B, Instruction::BinaryOps Op, const Values &X,
               const Values &Y) {
  Values Made;
  for (auto [One, Other] : zip_equal(X, Y))
    Made.push_back(B.CreateBinOp(Op, One, Other));
  return Made;
}

static bool isZero(const Value *V) {
  auto *Number = dyn_cast<ConstantInt>(V);
  return Number && Number->isZero();
}

Values add(Builder &B, const Values &X, const Values &Y) {
  Values Made;
  Value *Carry = nullptr;
  for (auto [One, Other] : zip_equal(X, Y)) {
    if (!Carry && isZero(Other)) {
      Made.push_back(One);
      continue;
    }
    Value *Sum = B.CreateAdd(One, Other);
    Value *Over = B.CreateICmpULT(Sum, One);
    if (Carry) {
      Value *With = B.CreateAdd(Sum, B.CreateZExt(Carry, B.getInt64Ty()));
      Over = B.CreateOr(Over, B.CreateICmpULT(With, Sum));
      Sum = With;
    }
    Made.push_back(Sum);
    Carry = Over;
  }
  return Made;
}

Values subtract(Builder &B, const Values &X, const Values &Y) {
  Values Made;
  Value *Borrow = nullptr;
  for (auto [One, Other] : zip_equal(X, Y)) {
    Value *Rest = B.CreateSub(One, Other);
    Value *Under = B.CreateICmpULT(One, Other);
    if (Borrow) {
      Value *Less = B.CreateZExt(Borrow, B.getInt64Ty());
      Under = B.CreateOr(Under, B.CreateICmpULT(Rest, Less));
      Rest = B.CreateSub(Rest, Less);
    }
    Made.push_back(Rest);
    Borrow = Under;
  }
  return Made;
}

// The upper word of the product of two words, by halves.
Value *upperWord(Builder &B, Value *X, Value *Y) {
  auto Low = [&](Value *V) { return B.CreateAnd(V, B.getInt64(0xffffffff)); };
  auto High = [&](Value *V) { return B.CreateLShr(V, 32); };
  Value *Middle = B.CreateAdd(B.CreateMul(High(X), Low(Y)),
                              High(B.CreateMul(Low(X), Low(Y))));
  Value *Other = B.CreateAdd(B.CreateMul(Low(X), High(Y)), Low(Middle));
  return B.CreateAdd(B.CreateAdd(B.CreateMul(High(X), High(Y)), High(Middle)),
                     High(Other));
}

// As many words of the product as the factors have: the sum of the products of
// their words, each where it stands.
Values multiply(Builder &B, const Values &X, const Values &Y) {
  Values Made(X.size(), B.getInt64(0));
  for (unsigned I = 0; I < X.size(); I++)
    for (unsigned J = 0; I + J < Y.size(); J++) {
      Values Term(X.size(), B.getInt64(0));
      Term[I + J] = B.CreateMul(X[I], Y[J]);
      if (I + J + 1 < Term.size())
        Term[I + J + 1] = upperWord(B, X[I], Y[J]);
      Made = add(B, Made, Term);
    }
  return Made;
}

// By a constant number of bits. What comes in from above is Fill.
Values shiftRight(Builder &B, const Values &X, unsigned By, bool IsSigned,
                  Value *Fill) {
  unsigned Skipped = By / 64, Bits = By % 64;
  auto Word = [&](unsigned K) { return K < X.size() ? X[K] : Fill; };
  Values Made;
  for (unsigned K = Skipped; K < X.size() + Skipped; K++) {
    Value *Low = Word(K);
    if (Bits && K < X.size()) {
      bool IsTop = K + 1 == X.size();
      Low =
          IsTop && IsSigned ? B.CreateAShr(Low, Bits) : B.CreateLShr(Low, Bits);
      if (!IsTop)
        Low = B.CreateOr(Low, B.CreateShl(Word(K + 1), 64 - Bits));
    }
    Made.push_back(Low);
  }
  return Made;
}

Values shiftLeft(Builder &B, const Values &X, unsigned By) {
  unsigned Skipped = By / 64, Bits = By % 64;
  Values Made(Skipped, B.getInt64(0));
  for (unsigned K = 0; K + Skipped < X.size(); K++) {
    Value *High = X[K];
    if (Bits) {
      High = B.CreateShl(High, Bits);
      if (K)
        High = B.CreateOr(High, B.CreateLShr(X[K - 1], 64 - Bits));
    }
    Made.push_back(High);
  }
  return Made;
}

// Equal where no word has a bit that differs: as exact as one comparison.
Value *isEqual(Builder &B, ICmpInst::Predicate Predicate, const Values &X,
               const Values &Y) {
  Value *Differs = nullptr;
  for (auto [One, Other] : zip_equal(X, Y)) {
    Value *Here = B.CreateXor(One, Other);
    Differs = Differs ? B.CreateOr(Differs, Here) : Here;
  }
  return B.CreateICmp(Predicate, Differs, B.getInt64(0));
}

// X < Y, or X <= Y: where the upper words are less, or are not greater and
// the words below are so. An unset bit of an upper word that changes whether
// it is less, but not whether it is greater, stays without effect where the
// words below decide the same.
Value *isLess(Builder &B, ICmpInst::Predicate Predicate, const Values &X,
              const Values &Y) {
  auto Unsigned = ICmpInst::isSigned(Predicate)
                      ? ICmpInst::getUnsignedPredicate(Predicate)
                      : Predicate;
  Value *Result = B.CreateICmp(Unsigned, X[0], Y[0]);
  for (unsigned K = 1; K < X.size(); K++) {
    auto Here = K + 1 == X.size() ? Predicate : Unsigned;
    auto Less = ICmpInst::getStrictPredicate(Here);
    auto NotGreater = ICmpInst::getNonStrictPredicate(Here);
    Result =
        B.CreateOr(B.CreateICmp(Less, X[K], Y[K]),
                   B.CreateAnd(B.CreateICmp(NotGreater, X[K], Y[K]), Result));
  }
  return Result;
}

} // namespace lower
