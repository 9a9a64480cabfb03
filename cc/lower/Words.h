// Numbers as words of 64 bits, the lowest first. Operands have as many words as
// each other, and their result has as many.
#ifndef MSAN_LOWER_WORDS_H
#define MSAN_LOWER_WORDS_H

#include "Parts.h"

namespace lower {

/// The parts of a number as words: the top one is extended.
Values words(Builder &B, Values Parts, bool IsSigned);
/// More words of the same number.
Values extended(Builder &B, Values Words, size_t Count, bool IsSigned);
/// The parts of a type, from at least as many words.
Values fromWords(Builder &B, Values Words, llvm::Type *T);

Values eachBit(Builder &B, llvm::Instruction::BinaryOps Op, const Values &X,
               const Values &Y);
Values add(Builder &B, const Values &X, const Values &Y);
Values subtract(Builder &B, const Values &X, const Values &Y);
Values multiply(Builder &B, const Values &X, const Values &Y);
/// The upper word of the product of two words.
llvm::Value *upperWord(Builder &B, llvm::Value *X, llvm::Value *Y);
/// By a constant number of bits. What comes in from above is Fill.
Values shiftRight(Builder &B, const Values &X, unsigned By, bool IsSigned,
                  llvm::Value *Fill);
Values shiftLeft(Builder &B, const Values &X, unsigned By);
llvm::Value *isEqual(Builder &B, llvm::ICmpInst::Predicate Predicate,
                     const Values &X, const Values &Y);
llvm::Value *isLess(Builder &B, llvm::ICmpInst::Predicate Predicate,
                    const Values &X, const Values &Y);

/// Whether a signed sum or difference is another number than the exact one,
/// told by the signs of both operands and of the result. (Overflow.cpp)
llvm::Value *signsOverflow(Builder &B, bool IsAdd, llvm::Value *X,
                           llvm::Value *Y, llvm::Value *Result);

} // namespace lower

#endif
