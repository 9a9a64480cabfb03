// Variable arguments, at the calls and where they are read.
#include "Variadics.h"
#include "Lowerings.h"

using namespace llvm;

namespace lower {

namespace {
struct Slot {
  unsigned Argument;
  uint64_t Offset;
};
} // namespace

// Where the ABI of x86-64 puts arguments once its registers are used up.
static std::vector<Slot> slots(Program &P, CallBase &Call, uint64_t &Size) {
  std::vector<Slot> Found;
  for (unsigned K = Call.getFunctionType()->getNumParams(); K < Call.arg_size();
       K++) {
    bool IsCopied = Call.isByValArgument(K);
    Type *T =
        IsCopied ? Call.getParamByValType(K) : Call.getArgOperand(K)->getType();
    Align Alignment = IsCopied ? Call.getParamAlign(K).valueOrOne()
                               : P.Layout.getABITypeAlign(T);
    Size = alignTo(Size, std::max(Alignment, Align(8)));
    Found.push_back({K, Size});
    Size += alignTo(P.Layout.getTypeAllocSize(T), 8);
  }
  return Found;
}

// How many bytes behind the arguments are unset, for a callee that takes more
// arguments than there are.
static constexpr uint64_t Behind = 64;

AllocaInst *VariableArguments::variableOf(Function &Caller) {
  AllocaInst *&Variable = Variables[&Caller.getEntryBlock()];
  if (Variable)
    return Variable;
  uint64_t Most = 0;
  for (CallBase *Call : allOfKind<CallBase>(Caller)) {
    uint64_t Size = 0;
    if (Call->getFunctionType()->isVarArg())
      slots(P, *Call, Size);
    Most = std::max(Most, Size);
  }
  auto *Type = ArrayType::get(P.Int64, (Most + Behind) / 8);
  Variable = frameVariable(Caller, Type, Align(16), "variable");
  return Variable;
}

ConstantInt *VariableArguments::sizeOf(AllocaInst &Variable, Builder &B) {
  return B.getInt64(P.Layout.getTypeAllocSize(Variable.getAllocatedType()));
}

// They are stored and copied with their masks, which is no use. The variable's
// life begins at each call: so an argument too many is uninitialised where it
// is read, and none of an earlier call.
AllocaInst *VariableArguments::store(CallBase &Call, Builder &B) {
  AllocaInst *Variable = variableOf(*Call.getFunction());
  B.CreateLifetimeStart(Variable, sizeOf(*Variable, B));
  uint64_t Size = 0;
  for (auto &[K, Offset] : slots(P, Call, Size)) {
    Value *To = B.at(Variable, Offset);
    Value *Given = Call.getArgOperand(K);
    if (Call.isByValArgument(K))
      B.CreateMemCpy(To, Align(8), Given, Call.getParamAlign(K),
                     P.Layout.getTypeAllocSize(Call.getParamByValType(K)));
    else
      B.CreateStore(Given, To);
  }
  return Variable;
}

void VariableArguments::end(AllocaInst &Variable, Builder &B) {
  B.CreateLifetimeEnd(&Variable, sizeOf(Variable, B));
}

// Where `va_arg` may find an `__int128` in registers or in memory it rounds the
// address up; but a call hands that over as two words, which stand as any do.
void lowerWideVaArg(Function &F) {
  auto IsOfVaArg = [](const User *U) {
    return isa<PHINode>(U) && U->getName().starts_with("vaarg.addr");
  };
  for (CallBase *Mask : allOfKind<CallBase>(F)) {
    if (Mask->getIntrinsicID() != Intrinsic::ptrmask ||
        none_of(Mask->users(), IsOfVaArg))
      continue;
    if (auto *Up = dyn_cast<GetElementPtrInst>(Mask->getArgOperand(0)))
      replace(Mask, Up->getPointerOperand());
  }
}

// `va_start` fills the four fields of a va_list of x86-64. The offsets 48 and
// 176 are the sizes of the areas for registers: so clang's `va_arg`, which
// compares them, takes each argument from memory. All four are constants or
// the variable's address, so what `va_arg` branches on is initialised.
void startList(Program &P, CallBase &Start, Value *Variable) {
  Builder B(&Start);
  Value *List = Start.getArgOperand(0);
  B.CreateStore(B.getInt32(48), List);
  B.CreateStore(B.getInt32(176), B.at(List, 4));
  B.CreateStore(Variable, B.at(List, 8));
  B.CreateStore(ConstantPointerNull::get(P.Ptr), B.at(List, 16));
  Start.eraseFromParent();
}

} // namespace lower
