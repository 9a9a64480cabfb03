// What is left that msan leaves out is said, each with its place in C.
#include "Lowerings.h"

using namespace llvm;

namespace lower {

static bool fitsWord(const Type *T) {
  if (T->isPointerTy())
    return T->getPointerAddressSpace() == 0;
  return T->isVoidTy() || T->isLabelTy() || T->isMetadataTy() ||
         (T->isIntegerTy() && T->getIntegerBitWidth() <= 64);
}

// What of a type msan leaves out; null if nothing.
static Type *outsideIn(Type *T) {
  if (!T->isAggregateType())
    return fitsWord(T) ? nullptr : T;
  for (Type *Part : T->subtypes())
    if (Type *Outside = outsideIn(Part))
      return Outside;
  return nullptr;
}

static StringRef named(Type *T) {
  return T->isVectorTy()          ? "a vector"
         : T->isFloatingPointTy() ? "floating point"
         : T->isIntegerTy()       ? "an integer of more than 64 bits"
                                  : "a type without a counterpart in C";
}

static void complainOfTypes(Program &P, Instruction &I) {
  if (auto *Variable = dyn_cast<AllocaInst>(&I)) {
    if (Type *Outside = outsideIn(Variable->getAllocatedType()))
      P.Errors.at(*Variable, named(Outside));
    return;
  }
  if (!fitsWord(I.getType()))
    return P.Errors.at(I, named(I.getType()));
  for (Value *V : I.operands())
    if (!isa<Function>(V) && !fitsWord(V->getType()))
      return P.Errors.at(I, named(V->getType()));
}

static void complainOfMissing(Program &P, Instruction &I) {
  for (Value *V : I.operands()) {
    auto *Object = dyn_cast<GlobalValue>(V->stripInBoundsOffsets());
    if (!Object || !Object->isDeclaration())
      continue;
    if (auto *F = dyn_cast<Function>(Object); F && isTaken(*F))
      continue;
    P.Errors.at(I, "'" + Object->getName() +
                       "' is neither in the program nor in the library");
    P.Errors.note("--missing-trap makes a call of what is missing a trap, "
                  "where it is reached");
  }
}

// Where a function that isn't there is named as a value.
void complainOfMissingValue(Program &P, const Function &F) {
  std::string What =
      ("'" + F.getName() + "' is neither in the program nor in the library")
          .str();
  bool IsPlaced = false;
  for (const User *U : F.users())
    if (auto *I = dyn_cast<Instruction>(U)) {
      P.Errors.at(*I, What);
      IsPlaced = true;
    }
  if (!IsPlaced)
    P.Errors.about(What);
}

static void complainOf(Program &P, Instruction &I) {
  auto *Call = dyn_cast<CallBase>(&I);
  if (Call && Call->isInlineAsm())
    P.Errors.at(I, "assembly");
  else if (isa<CallBrInst, VAArgInst, IndirectBrInst>(I))
    P.Errors.at(I, Twine(I.getOpcodeName()));
  else
    complainOfTypes(P, I);
  complainOfMissing(P, I);
}

void complainOfRemaining(Program &P) {
  for (Function *F : P.bodies()) {
    for (Argument &A : F->args())
      if (!fitsWord(A.getType()))
        P.Errors.in(*F, named(A.getType()));
    for (Instruction &I : instructions(F))
      complainOf(P, I);
  }
  for (GlobalVariable &Global : P.M.globals())
    if (Type *Outside = outsideIn(Global.getValueType()))
      P.Errors.at(Global, named(Outside));
}

} // namespace lower
