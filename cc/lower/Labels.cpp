// `goto *place`: a label's address is that of a byte of its own, the jump a
// switch on which byte it is.
//
//   indirectbr ptr %place, [label %one, label %two]
//
// becomes, with the differences of addresses in short:
//
//   %byte = load i8, ptr %place
//   %label = sub i64 %place, @f.labels
//   switch i64 %label, label %elsewhere [i64 0, label %one i64 1, label %two]
#include "Lowerings.h"
#include <map>
#include <set>

using namespace llvm;

namespace lower {

using Numbers = std::map<BasicBlock *, uint64_t>;

static BasicBlock *trapBlock(Function &F) {
  auto *Block = BasicBlock::Create(F.getContext(), "elsewhere", &F);
  IRBuilder<> B(Block);
  B.CreateIntrinsic(B.getVoidTy(), Intrinsic::trap, {});
  B.CreateUnreachable();
  return Block;
}

// One byte for each label whose address is taken; the addresses become
// constants, as they were.
static GlobalVariable *addBytes(Program &P, Function &F, Numbers &Number) {
  std::vector<BasicBlock *> Named;
  for (BasicBlock &Block : F)
    if (Block.hasAddressTaken())
      Named.push_back(&Block);
  if (Named.empty())
    return nullptr;
  Constant *Zero = Constant::getNullValue(ArrayType::get(P.Int8, Named.size()));
  GlobalVariable *Bytes = P.addGlobal(Zero, true, F.getName() + ".labels");
  for (BasicBlock *Block : Named) {
    uint64_t At = Number.size();
    Number[Block] = At;
    BlockAddress *Address = BlockAddress::get(Block);
    Address->replaceAllUsesWith(ConstantExpr::getInBoundsGetElementPtr(
        P.Int8, Bytes, ConstantInt::get(P.Int64, At)));
    Address->destroyConstant();
  }
  return Bytes;
}

// The byte of the label is read where the program jumps: an unset bit of the
// address is a checked use there, which clang's text, with one jump for all,
// has no place for. The jump is a use anyway.
static void readByte(Program &P, IndirectBrInst &Jump) {
  auto *Phi = dyn_cast<PHINode>(Jump.getAddress());
  if (!Phi || Phi->getParent() != Jump.getParent()) {
    Builder(&Jump).CreateLoad(P.Int8, Jump.getAddress(), "byte");
    return;
  }
  for (unsigned K = 0; K < Phi->getNumIncomingValues(); K++)
    Builder(Phi->getIncomingBlock(K)->getTerminator())
        .CreateLoad(P.Int8, Phi->getIncomingValue(K), "byte");
}

// The switch uses all bits of the address, as the jump does: a subtraction of
// a constant keeps an unset bit unset. What is no label's address is a trap.
static void lowerJump(Program &P, IndirectBrInst &Jump, GlobalVariable *Bytes,
                      const Numbers &Number) {
  readByte(P, Jump);
  Builder B(&Jump);
  Value *Distance = B.CreateSub(B.CreatePtrToInt(Jump.getAddress(), P.Int64),
                                B.CreatePtrToInt(Bytes, P.Int64), "label");
  BasicBlock *Elsewhere = trapBlock(*Jump.getFunction());
  for (Instruction &I : *Elsewhere)
    I.setDebugLoc(Jump.getDebugLoc());
  SwitchInst *ByLabel = B.CreateSwitch(Distance, Elsewhere, Number.size());
  std::set<BasicBlock *> Seen;
  for (BasicBlock *To : Jump.successors()) {
    auto At = Number.find(To);
    if (At == Number.end() || !Seen.insert(To).second)
      To->removePredecessor(Jump.getParent(), true);
    else
      ByLabel->addCase(ConstantInt::get(P.Int64, At->second), To);
  }
  Jump.eraseFromParent();
}

void lowerLabels(Program &P) {
  for (Function *F : P.bodies()) {
    Numbers Number;
    if (GlobalVariable *Bytes = addBytes(P, *F, Number))
      for (IndirectBrInst *Jump : allOfKind<IndirectBrInst>(*F))
        lowerJump(P, *Jump, Bytes, Number);
  }
}

} // namespace lower
