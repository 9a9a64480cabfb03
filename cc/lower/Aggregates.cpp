// What moves a value in parts moves its parts, with their masks: none of these
// is a use of what it moves.
//
//   %pair = load { i64, i32 }, ptr %p
//   ret { i64, i32 } %pair
//
// becomes, in a function that has the pointer %result,
//
//   %1 = load i64, ptr %p
//   %2 = load i32, ptr (%p + 8)
//   store i64 %1, ptr %result
//   store i32 %2, ptr (%result + 8)
//   ret void
#include "Parts.h"

using namespace llvm;

namespace lower {

void PartsLowering::storeParts(Builder &B, Value *V, Value *To) {
  for (auto [Part, L] : zip_equal(parts(V), leaves(V->getType())))
    B.CreateAlignedStore(Part, B.at(To, L.Offset), Align(1));
}

// The parts are loaded where the whole was, so from the same bytes. A byte
// between them is read by neither.
bool PartsLowering::visitLoadInst(LoadInst &I) {
  Builder B(&I);
  Values Parts;
  for (Leaf L : leaves(I.getType()))
    Parts.push_back(
        B.CreateAlignedLoad(L.Type, B.at(I.getPointerOperand(), L.Offset),
                            commonAlignment(I.getAlign(), L.Offset)));
  return made(I, Parts);
}

bool PartsLowering::visitStoreInst(StoreInst &I) {
  Builder B(&I);
  storeParts(B, I.getValueOperand(), I.getPointerOperand());
  return true;
}

// To where the caller wants the result.
bool PartsLowering::visitReturnInst(ReturnInst &I) {
  Builder B(&I);
  storeParts(B, I.getReturnValue(), I.getFunction()->getArg(0));
  B.CreateRetVoid();
  return true;
}

// Which part indices lead to: how many parts stand before it.
unsigned PartsLowering::firstLeaf(Type *T, ArrayRef<unsigned> Indices) {
  unsigned Before = 0;
  for (unsigned Index : Indices) {
    for (unsigned K = 0; K < Index; K++)
      Before += leaves(GetElementPtrInst::getTypeAtIndex(T, K)).size();
    T = GetElementPtrInst::getTypeAtIndex(T, Index);
  }
  return Before;
}

bool PartsLowering::visitInsertValueInst(InsertValueInst &I) {
  Values Whole = parts(I.getAggregateOperand());
  copy(parts(I.getInsertedValueOperand()),
       Whole.begin() + firstLeaf(I.getType(), I.getIndices()));
  return made(I, Whole);
}

bool PartsLowering::visitExtractValueInst(ExtractValueInst &I) {
  Value *Whole = I.getAggregateOperand();
  Values All = parts(Whole);
  auto First = All.begin() + firstLeaf(Whole->getType(), I.getIndices());
  if (!isInParts(I.getType())) {
    replaceByWord(I, *First);
    return true;
  }
  return made(I, Values(First, First + leaves(I.getType()).size()));
}

bool PartsLowering::visitPHINode(PHINode &I) {
  Builder B(&I);
  Values Parts;
  for (Leaf L : leaves(I.getType()))
    Parts.push_back(B.CreatePHI(L.Type, I.getNumIncomingValues()));
  Phis.push_back(&I);
  return made(I, Parts);
}

// An unset condition makes unset what differs between the parts, as it does
// between the wholes.
bool PartsLowering::visitSelectInst(SelectInst &I) {
  Builder B(&I);
  Values Parts;
  for (auto [One, Other] :
       zip_equal(parts(I.getTrueValue()), parts(I.getFalseValue())))
    Parts.push_back(B.CreateSelect(I.getCondition(), One, Other));
  return made(I, Parts);
}

bool PartsLowering::visitFreezeInst(FreezeInst &I) {
  Builder B(&I);
  Values Parts;
  for (Value *Part : parts(I.getOperand(0)))
    Parts.push_back(B.CreateFreeze(Part));
  return made(I, Parts);
}

} // namespace lower
