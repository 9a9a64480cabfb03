// Values that are taken apart into their parts, each a word of msan's.
#ifndef MSAN_LOWER_PARTS_H
#define MSAN_LOWER_PARTS_H

#include "Program.h"
#include "llvm/ADT/DenseMap.h"
#include "llvm/IR/InstVisitor.h"
#include "llvm/IR/IntrinsicInst.h"

namespace lower {

/// One part of a type, and how many bytes behind its beginning it stands.
struct Leaf {
  llvm::Type *Type;
  uint64_t Offset;
};

/// The parts of a type: those of a struct's or an array's elements; of an
/// integer of more than 64 bits its words, the lowest first.
std::vector<Leaf> leavesOf(const llvm::DataLayout &Layout, llvm::Type *T);

using Values = std::vector<llvm::Value *>;

/// The parts of a constant, in the same order.
Values partsOf(const Program &P, llvm::Constant &C);

/// Takes the values of one function apart. A visit makes the parts of what an
/// instruction computes, or returns false: then it has no lowering.
class PartsLowering : public llvm::InstVisitor<PartsLowering, bool> {
public:
  explicit PartsLowering(Program &P) : P(P) {}
  void run(llvm::Function &F);

  // Aggregates.cpp: what moves a value
  bool visitLoadInst(llvm::LoadInst &I);
  bool visitStoreInst(llvm::StoreInst &I);
  bool visitReturnInst(llvm::ReturnInst &I);
  bool visitInsertValueInst(llvm::InsertValueInst &I);
  bool visitExtractValueInst(llvm::ExtractValueInst &I);
  bool visitPHINode(llvm::PHINode &I);
  bool visitSelectInst(llvm::SelectInst &I);
  bool visitFreezeInst(llvm::FreezeInst &I);
  // Overflow.cpp
  bool visitIntrinsicInst(llvm::IntrinsicInst &I);
  // WideIntegers.cpp: what computes with one
  bool visitBinaryOperator(llvm::BinaryOperator &I);
  bool visitICmpInst(llvm::ICmpInst &I);
  bool visitCastInst(llvm::CastInst &I);
  bool visitInstruction(llvm::Instruction &) { return false; }

private:
  void fillPhis();
  Values parts(llvm::Value *V);
  std::vector<Leaf> leaves(llvm::Type *T) { return leavesOf(P.Layout, T); }
  unsigned firstLeaf(llvm::Type *T, llvm::ArrayRef<unsigned> Indices);
  void storeParts(Builder &B, llvm::Value *V, llvm::Value *To);
  bool wideOverflow(llvm::WithOverflowInst &I);
  bool wideProduct(llvm::WithOverflowInst &I);
  bool made(llvm::Instruction &I, Values Parts);
  void replaceByWord(llvm::Instruction &I, llvm::Value *Word);

  Program &P;
  llvm::DenseMap<llvm::Value *, Values> Known;
  std::vector<llvm::PHINode *> Phis;
};

} // namespace lower

#endif
