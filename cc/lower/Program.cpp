#include "Program.h"

using namespace llvm;

namespace lower {

Program::Program(Module &M, const Options &Chosen)
    : M(M), Context(M.getContext()), Layout(M.getDataLayout()), Chosen(Chosen),
      Int8(Type::getInt8Ty(Context)), Int32(Type::getInt32Ty(Context)),
      Int64(Type::getInt64Ty(Context)), Ptr(PointerType::get(Context, 0)),
      Void(Type::getVoidTy(Context)) {}

std::vector<Function *> Program::bodies() const {
  std::vector<Function *> Found;
  for (Function &F : M)
    if (!F.isDeclaration())
      Found.push_back(&F);
  return Found;
}

GlobalVariable *Program::addGlobal(Constant *Initial, bool IsConstant,
                                   const Twine &Name) {
  return new GlobalVariable(M, Initial->getType(), IsConstant,
                            GlobalValue::InternalLinkage, Initial, Name);
}

bool isInParts(const Type *T) {
  return T->isAggregateType() ||
         (T->isIntegerTy() && T->getIntegerBitWidth() > 64);
}

AllocaInst *frameVariable(Function &F, Type *Type, Align Align,
                          const Twine &Name) {
  auto *Variable = new AllocaInst(Type, 0, nullptr, Align, Name);
  Variable->insertBefore(&*F.getEntryBlock().getFirstInsertionPt());
  return Variable;
}

void replace(Instruction *Old, Value *New) {
  if (!Old->getType()->isVoidTy() && Old->getType() == New->getType()) {
    if (!New->hasName() && isa<Instruction>(New))
      New->takeName(Old);
    Old->replaceAllUsesWith(New);
  }
  Old->eraseFromParent();
}

void trapInstead(Instruction *I) {
  Builder B(I);
  B.CreateIntrinsic(B.getVoidTy(), Intrinsic::trap, {});
  if (!I->use_empty())
    I->replaceAllUsesWith(PoisonValue::get(I->getType()));
  I->eraseFromParent();
}

CallInst *callInstead(CallBase *Call, FunctionCallee Callee,
                      ArrayRef<Value *> Arguments) {
  return Builder(Call).CreateCall(Callee, Arguments);
}

} // namespace lower
