// Constant expressions: instructions before their use; in an initialiser a
// store when `main` starts.
//
//   @end = global i64 add (i64 ptrtoint (ptr @a to i64), i64 4)
//
// becomes `@end = global i64 0`, and in `main`
//
//   %1 = ptrtoint ptr @a to i64
//   %2 = add i64 %1, 4
//   store i64 %2, ptr @end
#include "Lowerings.h"
#include <map>

using namespace llvm;

namespace lower {

// A number, null, undef, a global's address, or a place in one that constant
// indices lead to.
static bool isPlain(const Constant *C) {
  auto *E = dyn_cast<ConstantExpr>(C);
  if (!E)
    return true;
  auto IsNumber = [](const Use &U) { return isa<ConstantInt>(U); };
  return E->getOpcode() == Instruction::GetElementPtr &&
         isa<GlobalValue, ConstantExpr>(E->getOperand(0)) &&
         isPlain(E->getOperand(0)) &&
         all_of(drop_begin(E->operands()), IsNumber);
}

static Value *asInstructions(Constant *C, Instruction *Before, DebugLoc Place) {
  if (isPlain(C))
    return C;
  Instruction *I = cast<ConstantExpr>(C)->getAsInstruction();
  I->insertBefore(Before);
  I->setDebugLoc(Place);
  for (Use &U : I->operands())
    U.set(asInstructions(cast<Constant>(U.get()), I, Place));
  return I;
}

// What is computed from constants is initialised, so nothing is hidden or
// added. Of a phi the instructions stand at the end of the block before; it
// has one value for each block, however often it names it.
void lowerConstantOperands(Program &, Function &F) {
  for (Instruction *I : allOfKind<Instruction>(F)) {
    std::map<std::pair<BasicBlock *, Value *>, Value *> Made;
    for (Use &U : I->operands()) {
      auto *C = dyn_cast<ConstantExpr>(U.get());
      if (!C || isPlain(C))
        continue;
      auto *Phi = dyn_cast<PHINode>(I);
      Instruction *Before = Phi ? Phi->getIncomingBlock(U)->getTerminator() : I;
      Value *&Known = Made[{Before->getParent(), C}];
      if (!Known || !Phi)
        Known = asInstructions(C, Before, I->getDebugLoc());
      U.set(Known);
    }
  }
}

static Constant *plainPart(Program &P, GlobalVariable &Global, Constant *Part,
                           uint64_t Offset);

static Constant *plainParts(Program &P, GlobalVariable &Global, Constant *Whole,
                            uint64_t Offset) {
  std::vector<Constant *> Parts;
  auto *Struct = dyn_cast<StructType>(Whole->getType());
  auto *Array = dyn_cast<ArrayType>(Whole->getType());
  for (unsigned K = 0; K < Whole->getNumOperands(); K++) {
    uint64_t At =
        Struct ? uint64_t(P.Layout.getStructLayout(Struct)->getElementOffset(K))
               : K * P.Layout.getTypeAllocSize(Array->getElementType());
    Parts.push_back(plainPart(P, Global, cast<Constant>(Whole->getOperand(K)),
                              Offset + At));
  }
  return Struct ? ConstantStruct::get(Struct, Parts)
                : ConstantArray::get(Array, Parts);
}

// A part of an initialiser without constant expressions. Each becomes zero
// here and a store in front of all constructors, before the program can read
// it.
static Constant *plainPart(Program &P, GlobalVariable &Global, Constant *Part,
                           uint64_t Offset) {
  if (isa<ConstantArray, ConstantStruct>(Part))
    return plainParts(P, Global, Part, Offset);
  if (isPlain(Part))
    return Part;
  Global.setConstant(false);
  StartBuilder B(P);
  Value *V =
      asInstructions(Part, &*B.GetInsertPoint(), B.getCurrentDebugLocation());
  B.CreateAlignedStore(V, B.at(&Global, Offset), Align(1));
  return Constant::getNullValue(Part->getType());
}

void lowerConstants(Program &P) {
  for (GlobalVariable &Global : P.M.globals())
    if (Global.hasInitializer())
      Global.setInitializer(plainPart(P, Global, Global.getInitializer(), 0));
  for (Function *F : P.bodies())
    lowerConstantOperands(P, *F);
}

} // namespace lower
