// Integers of more than 64 bits, as packed bit-fields and `__int128` make them:
// computed by their words, for which Words.cpp has the reasons; and the
// variables that hold them: of as many bytes.
#include "Lowerings.h"
#include "Words.h"
#include "llvm/IR/Operator.h"
#include "llvm/Transforms/Utils/ValueMapper.h"

using namespace llvm;

namespace lower {

// ---- computing

static Values shift(Builder &B, BinaryOperator &I, const Values &X,
                    const ConstantInt &By) {
  unsigned Bits = By.getZExtValue();
  if (I.getOpcode() == Instruction::Shl)
    return shiftLeft(B, X, Bits);
  bool IsSigned = I.getOpcode() == Instruction::AShr;
  Value *Fill = IsSigned ? B.CreateAShr(X.back(), 63) : B.getInt64(0);
  return shiftRight(B, X, Bits, IsSigned, Fill);
}

bool PartsLowering::visitBinaryOperator(BinaryOperator &I) {
  Builder B(&I);
  auto *By = dyn_cast<ConstantInt>(I.getOperand(1));
  bool IsSigned = I.getOpcode() == Instruction::AShr;
  Values X = words(B, parts(I.getOperand(0)), IsSigned), Made;
  if (I.isShift()) {
    if (!By || By->getValue().uge(I.getType()->getIntegerBitWidth()))
      return false;
    return made(I, fromWords(B, shift(B, I, X, *By), I.getType()));
  }
  Values Y = words(B, parts(I.getOperand(1)), false);
  if (I.isBitwiseLogicOp())
    Made = eachBit(B, I.getOpcode(), X, Y);
  else if (I.getOpcode() == Instruction::Add)
    Made = add(B, X, Y);
  else if (I.getOpcode() == Instruction::Sub)
    Made = subtract(B, X, Y);
  else if (I.getOpcode() == Instruction::Mul)
    Made = multiply(B, X, Y);
  else
    return false;
  return made(I, fromWords(B, Made, I.getType()));
}

bool PartsLowering::visitICmpInst(ICmpInst &I) {
  if (!I.getOperand(0)->getType()->isIntegerTy())
    return false;
  Builder B(&I);
  Values X = words(B, parts(I.getOperand(0)), I.isSigned());
  Values Y = words(B, parts(I.getOperand(1)), I.isSigned());
  replaceByWord(I, I.isEquality() ? isEqual(B, I.getPredicate(), X, Y)
                                  : isLess(B, I.getPredicate(), X, Y));
  return true;
}

bool PartsLowering::visitCastInst(CastInst &I) {
  bool IsSigned = isa<SExtInst>(I);
  if (!isa<TruncInst, ZExtInst, SExtInst>(I))
    return false;
  Builder B(&I);
  Values Words = words(B, parts(I.getOperand(0)), IsSigned);
  if (!isInParts(I.getType())) {
    replaceByWord(I, I.getType() == B.getInt64Ty()
                         ? Words[0]
                         : B.CreateTrunc(Words[0], I.getType()));
    return true;
  }
  Words = extended(B, Words, (I.getType()->getIntegerBitWidth() + 63) / 64,
                   IsSigned);
  return made(I, fromWords(B, Words, I.getType()));
}

// ---- variables

static bool hasWide(Type *T) {
  if (auto *Struct = dyn_cast<StructType>(T))
    return any_of(Struct->elements(), hasWide);
  if (auto *Array = dyn_cast<ArrayType>(T))
    return hasWide(Array->getElementType());
  return T->isIntegerTy() && T->getIntegerBitWidth() > 64;
}

Type *typeInMemory(const Program &P, Type *T) {
  return hasWide(T) ? ArrayType::get(P.Int8, P.Layout.getTypeAllocSize(T)) : T;
}

namespace {
// Constant places in such variables: so many bytes behind the beginning.
class BytePlaces : public ValueMaterializer {
public:
  explicit BytePlaces(Program &P) : P(P) {}

  Value *materialize(Value *V) override {
    auto *Place = dyn_cast<GEPOperator>(V);
    if (!Place || !isa<Constant>(V))
      return nullptr;
    auto *Base = cast<Constant>(Place->getPointerOperand());
    Value *NewBase = materialize(Base);
    APInt Offset(64, 0);
    if ((!NewBase && !hasWide(Place->getSourceElementType())) ||
        !Place->accumulateConstantOffset(P.Layout, Offset))
      return nullptr;
    return ConstantExpr::getGetElementPtr(
        P.Int8, NewBase ? cast<Constant>(NewBase) : Base,
        ConstantInt::get(P.Context, Offset), Place->getNoWrapFlags());
  }

private:
  Program &P;
};
} // namespace

// The same initialiser, with its parts where they were and zeros between.
static Constant *withParts(Program &P, Constant &Initial) {
  std::vector<Constant *> Parts;
  uint64_t At = 0;
  auto FillTo = [&](uint64_t Offset) {
    if (Offset > At)
      Parts.push_back(
          Constant::getNullValue(ArrayType::get(P.Int8, Offset - At)));
  };
  std::vector<Leaf> Leaves = leavesOf(P.Layout, Initial.getType());
  for (auto [Part, L] : zip_equal(partsOf(P, Initial), Leaves)) {
    FillTo(L.Offset);
    Parts.push_back(cast<Constant>(Part));
    At = L.Offset + P.Layout.getTypeStoreSize(L.Type);
  }
  FillTo(P.Layout.getTypeAllocSize(Initial.getType()));
  return ConstantStruct::getAnon(Parts, true);
}

static void retype(Program &P, GlobalVariable &Global) {
  if (!hasWide(Global.getValueType()) || !Global.hasInitializer())
    return;
  Constant *Initial =
      Global.getInitializer()->isNullValue()
          ? Constant::getNullValue(typeInMemory(P, Global.getValueType()))
          : withParts(P, *Global.getInitializer());
  GlobalVariable *New = P.addGlobal(Initial, Global.isConstant(), "");
  New->takeName(&Global);
  New->copyAttributesFrom(&Global);
  New->setAlignment(std::max(Global.getAlign().valueOrOne(),
                             P.Layout.getABITypeAlign(Global.getValueType())));
  New->copyMetadata(&Global, 0);
  Global.replaceAllUsesWith(New);
  Global.eraseFromParent();
}

// The same address, by a sum of products: an unset index makes the same bits
// of it unset.
static void lowerPlace(Program &P, GetElementPtrInst &Place) {
  MapVector<Value *, APInt> Scaled;
  APInt Offset(64, 0);
  if (!hasWide(Place.getSourceElementType()) ||
      !Place.collectOffset(P.Layout, 64, Scaled, Offset))
    return;
  Builder B(&Place);
  Value *Sum = ConstantInt::get(P.Context, Offset);
  for (auto &[Index, Size] : Scaled) {
    Value *Word = B.CreateSExtOrTrunc(Index, P.Int64);
    Sum = B.CreateAdd(Sum, B.CreateMul(Word, B.getInt(Size)));
  }
  replace(&Place, B.CreateGEP(P.Int8, Place.getPointerOperand(), Sum));
}

// Each byte of such a variable stays where it was, and what loads and stores
// move isn't touched here.
void lowerWideMemory(Program &P) {
  BytePlaces Places(P);
  ValueToValueMapTy Known;
  ValueMapper Mapper(Known, RF_IgnoreMissingLocals | RF_NoModuleLevelChanges,
                     nullptr, &Places);
  for (GlobalVariable &Global : P.M.globals())
    if (Global.hasInitializer())
      Global.setInitializer(Mapper.mapConstant(*Global.getInitializer()));
  for (Function *F : P.bodies()) {
    for (Instruction &I : instructions(F))
      Mapper.remapInstruction(I);
    for (auto *Place : allOfKind<GetElementPtrInst>(*F))
      lowerPlace(P, *Place);
    for (auto *Variable : allOfKind<AllocaInst>(*F))
      Variable->setAllocatedType(typeInMemory(P, Variable->getAllocatedType()));
  }
  for (GlobalVariable &Global : make_early_inc_range(P.M.globals()))
    retype(P, Global);
}

} // namespace lower
