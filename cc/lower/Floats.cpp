// Floating-point numbers as words: `double` is moved as `i64`, `float` as
// `i32`, `long double` as `i80`; computing with one is an error or a trap.
#include "Lowerings.h"
#include "llvm/Transforms/Utils/BasicBlockUtils.h"
#include "llvm/Transforms/Utils/Local.h"
#include "llvm/Transforms/Utils/ValueMapper.h"

using namespace llvm;

namespace lower {
namespace {

// The type of as many bits that holds a number, or the two numbers of a struct
// that is passed as one, and types that are made of these.
class WordTypes : public ValueMapTypeRemapper {
public:
  Type *remapType(Type *T) override {
    if (Type *Found = Known.lookup(T))
      return Found;
    Type *Made = mapped(T);
    Known[T] = Made;
    return Made;
  }
  bool isOther(Type *T) { return remapType(T) != T; }

private:
  Type *mapped(Type *T);
  Type *mapped(StructType &T);

  DenseMap<Type *, Type *> Known;
};

Type *WordTypes::mapped(StructType &T) {
  std::vector<Type *> Elements;
  for (Type *Element : T.elements())
    Elements.push_back(remapType(Element));
  if (T.isOpaque() || T.elements() == ArrayRef<Type *>(Elements))
    return &T;
  if (!T.hasName())
    return StructType::get(T.getContext(), Elements, T.isPacked());
  std::string Name = T.getName().str();
  T.setName("");
  return StructType::create(T.getContext(), Elements, Name, T.isPacked());
}

Type *WordTypes::mapped(Type *T) {
  unsigned Width = T->getPrimitiveSizeInBits().getKnownMinValue();
  bool IsPair = isa<FixedVectorType>(T) && Width <= 64;
  if (T->isFloatingPointTy() || (T->isFPOrFPVectorTy() && IsPair))
    return IntegerType::get(T->getContext(), Width);
  if (auto *Struct = dyn_cast<StructType>(T))
    return mapped(*Struct);
  if (auto *Array = dyn_cast<ArrayType>(T))
    return ArrayType::get(remapType(Array->getElementType()),
                          Array->getNumElements());
  auto *F = dyn_cast<FunctionType>(T);
  if (!F)
    return T;
  std::vector<Type *> Parameters;
  for (Type *Parameter : F->params())
    Parameters.push_back(remapType(Parameter));
  return FunctionType::get(remapType(F->getReturnType()), Parameters,
                           F->isVarArg());
}

// The bits of a constant.
class WordConstants : public ValueMaterializer {
public:
  explicit WordConstants(WordTypes &Types) : Types(Types) {}
  Value *materialize(Value *V) override;

private:
  Value *place(GEPOperator &Old);

  WordTypes &Types;
};

// A place within a variable whose type is another; that of the expression is
// the same, so that the mapper would leave it.
Value *WordConstants::place(GEPOperator &Old) {
  auto *Base = cast<Constant>(Old.getPointerOperand());
  if (Value *New = materialize(Base))
    Base = cast<Constant>(New);
  else if (!Types.isOther(Old.getSourceElementType()))
    return nullptr;
  std::vector<Constant *> Indices;
  for (Use &Index : Old.indices())
    Indices.push_back(cast<Constant>(Index));
  return ConstantExpr::getGetElementPtr(
      Types.remapType(Old.getSourceElementType()), Base, Indices,
      Old.getNoWrapFlags());
}

Value *WordConstants::materialize(Value *V) {
  auto *C = dyn_cast<Constant>(V);
  if (C && isa<GEPOperator>(C))
    return place(cast<GEPOperator>(*C));
  if (!C || isa<GlobalValue, UndefValue>(C) || !Types.isOther(C->getType()))
    return nullptr;
  Type *New = Types.remapType(C->getType());
  if (auto *Number = dyn_cast<ConstantFP>(C))
    return ConstantInt::get(New, Number->getValueAPF().bitcastToAPInt());
  if (New->isIntegerTy())
    return C->isNullValue() ? ConstantInt::get(New, 0)
                            : ConstantExpr::getBitCast(C, New);
  if (auto *Numbers = dyn_cast<ConstantDataArray>(C))
    return ConstantDataArray::getRaw(Numbers->getRawDataValues(),
                                     Numbers->getNumElements(),
                                     New->getArrayElementType());
  return nullptr;
}

class Floats {
public:
  explicit Floats(Program &P)
      : P(P), Constants(Types),
        Mapper(Known, RF_IgnoreMissingLocals | RF_NoModuleLevelChanges, &Types,
               &Constants) {}
  void run();

private:
  bool isComputed(Instruction &I);
  void trapAtComputing(Function &F);
  void complainOfComputing(Function &F);
  void retype(Function &F);
  void retype(GlobalVariable &Global);
  void carry(Function &F);

  Program &P;
  WordTypes Types;
  WordConstants Constants;
  ValueToValueMapTy Known;
  ValueMapper Mapper;
};

// Whether an instruction does more with a number than to move its bits.
bool Floats::isComputed(Instruction &I) {
  auto IsNumber = [&](const Use &U) { return Types.isOther(U->getType()); };
  if (!Types.isOther(I.getType()) && none_of(I.operands(), IsNumber))
    return false;
  if (auto *Call = dyn_cast<CallBase>(&I)) {
    Function *Callee = Call->getCalledFunction();
    if (!Callee || Callee->isIntrinsic())
      return Callee;
    return P.Chosen.FloatTraps && Callee->isDeclaration() && !isTaken(*Callee);
  }
  return !isa<LoadInst, StoreInst, PHINode, SelectInst, FreezeInst, ReturnInst,
              InsertValueInst, ExtractValueInst, BitCastInst>(I);
}

// A trap, if that is asked for, up to which the run is the program's; what
// can't be reached behind it goes.
void Floats::trapAtComputing(Function &F) {
  for (BasicBlock &Block : F) {
    auto At = find_if(Block, [&](Instruction &I) { return isComputed(I); });
    if (At == Block.end())
      continue;
    Builder(&*At).CreateIntrinsic(P.Void, Intrinsic::trap, {});
    changeToUnreachable(&*At);
  }
  EliminateUnreachableBlocks(F);
}

// Else an error, and what follows is looked at all the same.
void Floats::complainOfComputing(Function &F) {
  for (Instruction *I : allOfKind<Instruction>(F)) {
    if (!isComputed(*I))
      continue;
    bool HasVector =
        I->getType()->isVectorTy() || I->getOperand(0)->getType()->isVectorTy();
    P.Errors.at(*I, HasVector ? "a vector" : "floating-point arithmetic");
    if (!HasVector)
      P.Errors.note("--float-trap makes floating-point arithmetic a trap, "
                    "where it is reached");
    if (I->getType()->isVoidTy())
      I->eraseFromParent();
    else
      replace(I, PoisonValue::get(I->getType()));
  }
}

void Floats::retype(Function &F) {
  auto *Type = cast<FunctionType>(Types.remapType(F.getFunctionType()));
  if (Type == F.getFunctionType())
    return;
  auto *New = Function::Create(Type, F.getLinkage(), "", P.M);
  New->takeName(&F);
  New->copyAttributesFrom(&F);
  New->splice(New->begin(), &F);
  New->setSubprogram(F.getSubprogram());
  F.setSubprogram(nullptr);
  for (auto [Old, By] : zip_equal(F.args(), New->args())) {
    Old.mutateType(By.getType());
    By.takeName(&Old);
    Old.replaceAllUsesWith(&By);
  }
  F.replaceAllUsesWith(New);
  F.eraseFromParent();
}

void Floats::retype(GlobalVariable &Global) {
  Type *T = Types.remapType(Global.getValueType());
  if (T == Global.getValueType())
    return;
  auto *New = new GlobalVariable(P.M, T, Global.isConstant(),
                                 Global.getLinkage(), nullptr, "", &Global);
  New->takeName(&Global);
  New->copyAttributesFrom(&Global);
  New->copyMetadata(&Global, 0);
  if (Global.hasInitializer())
    New->setInitializer(Mapper.mapConstant(*Global.getInitializer()));
  Global.replaceAllUsesWith(New);
  Global.eraseFromParent();
}

// A bitcast between a number and its bits is one of the same type now.
void Floats::carry(Function &F) {
  for (Instruction &I : instructions(F))
    Mapper.remapInstruction(I);
  for (BitCastInst *Cast : allOfKind<BitCastInst>(F))
    if (Cast->getSrcTy() == Cast->getDestTy())
      replace(Cast, Cast->getOperand(0));
}

void Floats::run() {
  for (Function *F : P.bodies())
    if (P.Chosen.FloatTraps)
      trapAtComputing(*F);
    else
      complainOfComputing(*F);
  for (Function &F : make_early_inc_range(P.M))
    if (!F.isIntrinsic())
      retype(F);
  for (GlobalVariable &Global : make_early_inc_range(P.M.globals()))
    retype(Global);
  for (GlobalVariable &Global : P.M.globals())
    if (Global.hasInitializer())
      Global.setInitializer(Mapper.mapConstant(*Global.getInitializer()));
  for (Function *F : P.bodies())
    carry(*F);
}

} // namespace

// Masks of loads, stores, phis and selects are those of bits, whatever these
// stand for: so to move a number by its bits hides no use and adds none.
void carryFloatsAsWords(Program &P) { Floats(P).run(); }

} // namespace lower
