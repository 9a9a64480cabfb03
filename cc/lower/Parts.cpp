// Walks a function and takes apart what is in parts.
#include "Parts.h"
#include "Lowerings.h"
#include "llvm/ADT/PostOrderIterator.h"

using namespace llvm;

namespace lower {

static void addLeaves(const DataLayout &Layout, Type *T, uint64_t Offset,
                      std::vector<Leaf> &Found) {
  if (auto *Struct = dyn_cast<StructType>(T)) {
    for (unsigned K = 0; K < Struct->getNumElements(); K++)
      addLeaves(Layout, Struct->getElementType(K),
                Offset + Layout.getStructLayout(Struct)->getElementOffset(K),
                Found);
  } else if (auto *Array = dyn_cast<ArrayType>(T)) {
    Type *Element = Array->getElementType();
    for (uint64_t K = 0; K < Array->getNumElements(); K++)
      addLeaves(Layout, Element, Offset + K * Layout.getTypeAllocSize(Element),
                Found);
  } else if (isInParts(T)) {
    unsigned Width = T->getIntegerBitWidth();
    for (unsigned At = 0; At < Width; At += 64)
      Found.push_back(
          {IntegerType::get(T->getContext(), std::min(64u, Width - At)),
           Offset + At / 8});
  } else {
    Found.push_back({T, Offset});
  }
}

std::vector<Leaf> leavesOf(const DataLayout &Layout, Type *T) {
  std::vector<Leaf> Found;
  addLeaves(Layout, T, 0, Found);
  return Found;
}

Values partsOf(const Program &P, Constant &C) {
  if (!isInParts(C.getType()))
    return {&C};
  Values Found;
  if (isa<UndefValue>(C)) {
    for (Leaf L : leavesOf(P.Layout, C.getType()))
      Found.push_back(UndefValue::get(L.Type));
  } else if (auto *Number = dyn_cast<ConstantInt>(&C)) {
    for (Leaf L : leavesOf(P.Layout, C.getType()))
      Found.push_back(ConstantInt::get(
          P.Context, Number->getValue().extractBits(
                         L.Type->getIntegerBitWidth(), L.Offset * 8)));
  } else {
    for (unsigned K = 0; Constant *Part = C.getAggregateElement(K); K++)
      for (Value *V : partsOf(P, *Part))
        Found.push_back(V);
  }
  return Found;
}

// The parts of a value. Without a lowering they are undefined: that it has
// none is complained of where it is made.
Values PartsLowering::parts(Value *V) {
  if (!isInParts(V->getType()))
    return {V};
  if (auto *C = dyn_cast<Constant>(V))
    return partsOf(P, *C);
  if (auto At = Known.find(V); At != Known.end())
    return At->second;
  Values Missing;
  for (Leaf L : leaves(V->getType()))
    Missing.push_back(PoisonValue::get(L.Type));
  return Missing;
}

bool PartsLowering::made(Instruction &I, Values Parts) {
  Known[&I] = std::move(Parts);
  return true;
}

// A result that is a word itself takes the name; the instruction goes with the
// others.
void PartsLowering::replaceByWord(Instruction &I, Value *Word) {
  if (isa<Instruction>(Word) && !Word->hasName())
    Word->takeName(&I);
  I.replaceAllUsesWith(Word);
}

void PartsLowering::fillPhis() {
  for (PHINode *Phi : Phis)
    for (unsigned K = 0; K < Phi->getNumIncomingValues(); K++)
      for (auto [Part, V] :
           zip_equal(Known[Phi], parts(Phi->getIncomingValue(K))))
        cast<PHINode>(Part)->addIncoming(V, Phi->getIncomingBlock(K));
}

static bool isWith(Instruction &I) {
  auto IsInParts = [](const Use &U) { return isInParts(U->getType()); };
  return isInParts(I.getType()) || any_of(I.operands(), IsInParts);
}

static StringRef kindOf(const Instruction &I) {
  auto IsAggregate = [](const Use &U) {
    return U->getType()->isAggregateType();
  };
  return I.getType()->isAggregateType() || any_of(I.operands(), IsAggregate)
             ? "a struct or array as one value"
             : "an integer of more than 64 bits";
}

// Blocks in an order in which what a value is made of comes first; phis, which
// may be made of what comes later, are filled at the end.
void PartsLowering::run(Function &F) {
  std::vector<Instruction *> Gone;
  ReversePostOrderTraversal<Function *> Order(&F);
  for (BasicBlock *Block : Order)
    for (Instruction &I : make_early_inc_range(*Block)) {
      if (!isWith(I))
        continue;
      if (!visit(I))
        P.Errors.at(I, kindOf(I) + ", in " + I.getOpcodeName());
      Gone.push_back(&I);
    }
  fillPhis();
  for (Instruction *I : reverse(Gone)) {
    if (!I->use_empty())
      I->replaceAllUsesWith(PoisonValue::get(I->getType()));
    I->eraseFromParent();
  }
}

void lowerParts(Program &P, Function &F) { PartsLowering(P).run(F); }

} // namespace lower
