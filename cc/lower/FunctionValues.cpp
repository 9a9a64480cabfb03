// Functions as values: each has an address in a table of the functions of its
// type; a call through a pointer goes by the place in that table.
#include "Lowerings.h"
#include "llvm/ADT/MapVector.h"
#include "llvm/Transforms/Utils/BasicBlockUtils.h"
#include <map>

using namespace llvm;

namespace lower {
namespace {

// The functions of one type whose addresses are taken. Their addresses lie as
// far apart as compilers align functions, so low bits that programs use for
// their own ends are zero.
struct Table {
  GlobalVariable *Bytes = nullptr;
  std::vector<Function *> Functions;

  static constexpr uint64_t Distance = 16;
  uint64_t size() const { return Distance * Functions.size(); }
};

class FunctionValues {
public:
  explicit FunctionValues(Program &P) : P(P) {}
  void run();

private:
  void addTables();
  void lowerCall(CallBase &Call);
  std::vector<Table *> tablesOf(const CallBase &Call);
  void test(CallBase &Call, ArrayRef<Table *> Reached);
  void callExternals(CallBase &Call, const Table &T);
  Function *dispatcher(const CallBase &Call, ArrayRef<Table *> Reached);
  void fill(Function &Dispatcher, const CallBase &Call,
            ArrayRef<Table *> Reached);
  void callFrom(Function &Dispatcher, BasicBlock *Block, Function *Callee,
                const CallBase &Call);
  Constant *address(const Table &T, unsigned K) {
    return ConstantExpr::getInBoundsGetElementPtr(
        P.Int8, T.Bytes, ConstantInt::get(P.Int64, K * Table::Distance));
  }
  Value *placeIn(const Table &T, Value *Address, IRBuilderBase &B) {
    return B.CreateSub(B.CreatePtrToInt(Address, P.Int64),
                       B.CreatePtrToInt(T.Bytes, P.Int64), "place");
  }

  Program &P;
  MapVector<FunctionType *, Table> Tables;
  // By the call's type and those of its arguments, since a variadic call has
  // more of these, and of the structs among them, which are copied.
  std::map<std::tuple<FunctionType *, std::vector<Type *>, std::vector<Type *>>,
           Function *>
      Dispatchers;
};

// The name of a function stays where it is called, or names a thread's
// routine.
bool isByName(const Use &U) {
  auto *Call = dyn_cast<CallBase>(U.getUser());
  if (!Call || Call->isCallee(&U))
    return Call;
  Function *Callee = Call->getCalledFunction();
  return Callee && Callee->getName() == "pthread_create" &&
         U.getOperandNo() == 2;
}

std::string spelled(const FunctionType &Type, StringRef First) {
  std::string Name = First.str();
  raw_string_ostream Out(Name);
  Out << '.' << *Type.getReturnType();
  for (llvm::Type *Parameter : Type.params())
    Out << '.' << *Parameter;
  return Name;
}

// The address of a function is that of a byte: a constant for a constant.
void FunctionValues::addTables() {
  for (Function &F : P.M) {
    if (F.isIntrinsic() || all_of(F.uses(), isByName))
      continue;
    Tables[F.getFunctionType()].Functions.push_back(&F);
    if (F.isDeclaration() && !isTaken(F) && !P.Chosen.MissingTraps)
      complainOfMissingValue(P, F);
  }
  for (auto &[Type, T] : Tables) {
    auto *Zero = Constant::getNullValue(ArrayType::get(P.Int8, T.size()));
    T.Bytes = P.addGlobal(Zero, true, spelled(*Type, "functions"));
    T.Bytes->setAlignment(Align(Table::Distance));
    for (unsigned K = 0; K < T.Functions.size(); K++)
      T.Functions[K]->replaceUsesWithIf(address(T, K),
                                        [](Use &U) { return !isByName(U); });
  }
}

// The functions of exactly the call's type, and where that has no prototype,
// of the type that its arguments make.
std::vector<Table *> FunctionValues::tablesOf(const CallBase &Call) {
  FunctionType *Type = Call.getFunctionType();
  std::vector<FunctionType *> Types = {Type};
  if (Type->isVarArg() &&
      (Type->getNumParams() == 0 || Type->getNumParams() == Call.arg_size())) {
    std::vector<llvm::Type *> Given;
    for (Value *Argument : Call.args())
      Given.push_back(Argument->getType());
    Types.push_back(FunctionType::get(Type->getReturnType(), Given, false));
  }
  std::vector<Table *> Found;
  for (FunctionType *One : Types)
    if (auto At = Tables.find(One); At != Tables.end())
      Found.push_back(&At->second);
  return Found;
}

// What a use of the pointer is here: its byte is read, so an unset bit of it
// is a checked address, at the call's place, and null is no address. One that
// is no function of the type is a trap there. The branch hangs on the same
// bits, so it is a use only where the address was one.
void FunctionValues::test(CallBase &Call, ArrayRef<Table *> Reached) {
  Builder B(&Call);
  Value *Callee = Call.getCalledOperand();
  B.CreateLoad(P.Int8, Callee, "callee");
  Value *IsOther = nullptr;
  for (const Table *T : Reached) {
    Value *IsOut =
        B.CreateICmpUGE(placeIn(*T, Callee, B), B.getInt64(T->size()));
    IsOther = IsOther ? B.CreateAnd(IsOther, IsOut) : IsOut;
  }
  if (!IsOther)
    return trapInstead(&Call);
  Instruction *End = SplitBlockAndInsertIfThen(IsOther, &Call, true);
  End->setDebugLoc(Call.getDebugLoc());
  Builder(End).CreateIntrinsic(P.Void, Intrinsic::trap, {});
}

bool isCalledAtCall(const Function &F, const CallBase &Call) {
  return F.isDeclaration() && F.getFunctionType() == Call.getFunctionType();
}

// A function of msan's own is called here, not in a dispatcher, which has no
// place in C: its arguments are checked, and its memory is told by where it
// was asked for.
void FunctionValues::callExternals(CallBase &Call, const Table &T) {
  for (unsigned K = 0; K < T.Functions.size(); K++) {
    Function *F = T.Functions[K];
    if (!isCalledAtCall(*F, Call))
      continue;
    Value *IsIt =
        Builder(&Call).CreateICmpEQ(Call.getCalledOperand(), address(T, K));
    Instruction *Same, *Other;
    SplitBlockAndInsertIfThenElse(IsIt, &Call, &Same, &Other);
    Same->setDebugLoc(Call.getDebugLoc());
    Other->setDebugLoc(Call.getDebugLoc());
    std::vector<Value *> Arguments(Call.arg_begin(), Call.arg_end());
    CallInst *Direct = callInstead(&Call, F, Arguments);
    Direct->moveBefore(Same);
    if (!Call.getType()->isVoidTy()) {
      PHINode *Result = Builder(&Call).CreatePHI(Call.getType(), 2);
      Call.replaceAllUsesWith(Result);
      Result->addIncoming(Direct, Same->getParent());
      Result->addIncoming(&Call, Other->getParent());
    }
    Call.moveBefore(Other);
  }
}

void FunctionValues::callFrom(Function &Dispatcher, BasicBlock *Block,
                              Function *Callee, const CallBase &Call) {
  IRBuilder<NoFolder> B(Block);
  std::vector<Value *> Arguments;
  for (Argument &A : drop_begin(Dispatcher.args()))
    Arguments.push_back(&A);
  CallInst *Direct = B.CreateCall(Callee, Arguments);
  Direct->setAttributes(Call.getAttributes());
  if (Direct->getType()->isVoidTy())
    B.CreateRetVoid();
  else
    B.CreateRet(Direct);
}

// A switch on the place in each table; the call has tested that one has it.
void FunctionValues::fill(Function &Dispatcher, const CallBase &Call,
                          ArrayRef<Table *> Reached) {
  auto *Block = BasicBlock::Create(P.Context, "entry", &Dispatcher);
  for (const Table *T : Reached) {
    IRBuilder<NoFolder> B(Block);
    Block = BasicBlock::Create(P.Context, "other", &Dispatcher);
    SwitchInst *Switch =
        B.CreateSwitch(placeIn(*T, Dispatcher.getArg(0), B), Block);
    for (unsigned K = 0; K < T->Functions.size(); K++) {
      Function *F = T->Functions[K];
      if (isCalledAtCall(*F, Call))
        continue;
      auto *Case = BasicBlock::Create(P.Context, F->getName(), &Dispatcher);
      Switch->addCase(B.getInt64(K * Table::Distance), Case);
      callFrom(Dispatcher, Case, F, Call);
    }
  }
  new UnreachableInst(P.Context, Block);
}

// The function that makes the calls of one type through pointers. Arguments
// and result are handed on, which is no use.
Function *FunctionValues::dispatcher(const CallBase &Call,
                                     ArrayRef<Table *> Reached) {
  std::vector<Type *> Parameters = {P.Ptr}, Copied;
  for (unsigned K = 0; K < Call.arg_size(); K++) {
    Parameters.push_back(Call.getArgOperand(K)->getType());
    if (Call.isByValArgument(K)) // among the variable ones; others are copied
      Copied.push_back(Call.getParamByValType(K));
  }
  FunctionType *Type = Call.getFunctionType();
  Function *&Made = Dispatchers[{Type, Parameters, Copied}];
  if (Made)
    return Made;
  auto *Own = FunctionType::get(Type->getReturnType(), Parameters, false);
  Made = Function::Create(Own, GlobalValue::InternalLinkage,
                          spelled(*Own, "call"), P.M);
  Made->getArg(0)->setName("callee");
  fill(*Made, Call, Reached);
  return Made;
}

void FunctionValues::lowerCall(CallBase &Call) {
  std::vector<Table *> Reached = tablesOf(Call);
  test(Call, Reached);
  if (Reached.empty())
    return;
  for (const Table *T : Reached)
    callExternals(Call, *T);
  std::vector<Value *> Arguments = {Call.getCalledOperand()};
  Arguments.insert(Arguments.end(), Call.arg_begin(), Call.arg_end());
  replace(&Call, callInstead(&Call, dispatcher(Call, Reached), Arguments));
}

void FunctionValues::run() {
  addTables();
  for (Function *F : P.bodies())
    for (CallBase *Call : allOfKind<CallBase>(*F))
      if (!Call->isInlineAsm() && !Call->getCalledFunction())
        lowerCall(*Call);
}

} // namespace

void lowerFunctionValues(Program &P) { FunctionValues(P).run(); }

} // namespace lower
