// Functions of LLVM's that are no more than an instruction or two, or nothing.
#include "Lowerings.h"
#include "llvm/IR/InlineAsm.h"
#include "llvm/IR/IntrinsicInst.h"

using namespace llvm;

namespace lower {

// Assembly without an instruction, a fence for the compiler or a value handed
// through, is nothing or that value.
static void lowerEmptyAssembly(CallBase &Call) {
  auto *Assembly = cast<InlineAsm>(Call.getCalledOperand());
  StringRef Text = Assembly->getAsmString();
  if (!Text.trim().empty() || isa<CallBrInst>(Call))
    return;
  if (Call.getType()->isVoidTy())
    Call.eraseFromParent();
  else if (Call.arg_size() == 1 &&
           Call.getArgOperand(0)->getType() == Call.getType())
    replace(&Call, Call.getArgOperand(0));
}

// Those that only tell the optimiser something, or that end a life which the
// function's end ends too.
static bool isNothing(const CallBase &Call) {
  switch (Call.getIntrinsicID()) {
  case Intrinsic::vaend:
  case Intrinsic::prefetch:
  case Intrinsic::stackrestore:
  case Intrinsic::donothing:
  case Intrinsic::sideeffect:
  case Intrinsic::var_annotation:
  case Intrinsic::invariant_end:
  case Intrinsic::experimental_noalias_scope_decl:
    return true;
  case Intrinsic::assume: // of an alignment; of a condition it is a use
    return Call.hasOperandBundles();
  default:
    return false;
  }
}

// Those whose result is their first argument.
static bool isItsArgument(const CallBase &Call) {
  switch (Call.getIntrinsicID()) {
  case Intrinsic::ptr_annotation:
  case Intrinsic::annotation:
  case Intrinsic::launder_invariant_group:
  case Intrinsic::strip_invariant_group:
  case Intrinsic::threadlocal_address:
  case Intrinsic::expect_with_probability:
  case Intrinsic::ssa_copy:
    return true;
  case Intrinsic::expect:
    return !isTaken(*Call.getCalledFunction());
  default:
    return false;
  }
}

// Copies stay copies; the place of a trap stays; and a `ptrmask` is an `and`.
// The memory of an array of variable length is fresh at each turn, since its
// `alloca` stays; it isn't used again before the function returns, so that the
// stack's end may come sooner.
static void lowerOther(Program &P, CallBase &Call) {
  Builder B(&Call);
  auto Given = [&](unsigned K) { return Call.getArgOperand(K); };
  auto Alignment = [&](unsigned K) { return Call.getParamAlign(K); };
  switch (Call.getIntrinsicID()) {
  case Intrinsic::stacksave:
  case Intrinsic::invariant_start:
    return replace(&Call, Constant::getNullValue(Call.getType()));
  case Intrinsic::vacopy:
    B.CreateMemCpy(Given(0), Align(8), Given(1), Align(8), 24);
    Call.eraseFromParent();
    return;
  case Intrinsic::memcpy_inline:
    B.CreateMemCpy(Given(0), Alignment(0), Given(1), Alignment(1), Given(2));
    Call.eraseFromParent();
    return;
  case Intrinsic::memset_inline:
    B.CreateMemSet(Given(0), Given(1), Given(2), Alignment(0));
    Call.eraseFromParent();
    return;
  case Intrinsic::is_constant:
    return replace(&Call, B.getFalse());
  case Intrinsic::ubsantrap:
  case Intrinsic::debugtrap:
    return replace(&Call, B.CreateIntrinsic(P.Void, Intrinsic::trap, {}));
  case Intrinsic::ptrmask: {
    Value *Bits = B.CreatePtrToInt(Given(0), Given(1)->getType());
    return replace(&Call, B.CreateIntToPtr(B.CreateAnd(Bits, Given(1)), P.Ptr));
  }
  }
}

void lowerIntrinsics(Program &P, Function &F) {
  for (CallBase *Call : allOfKind<CallBase>(F))
    if (Call->isInlineAsm())
      lowerEmptyAssembly(*Call);
    else if (isNothing(*Call))
      Call->eraseFromParent();
    else if (isItsArgument(*Call))
      replace(Call, Call->getArgOperand(0));
    else
      lowerOther(P, *Call);
}

// Whether a select takes its other operand where X is 0.
static bool takesOther(const SelectInst &Select, const Value *Count,
                       const Value *X) {
  auto *Test = dyn_cast<ICmpInst>(Select.getCondition());
  if (!Test || !Test->isEquality())
    return false;
  auto *Zero = dyn_cast<Constant>(Test->getOperand(1));
  if (Test->getOperand(0) != X || !Zero || !Zero->isNullValue())
    return false;
  bool IsEqual = Test->getPredicate() == ICmpInst::ICMP_EQ;
  const Value *AtZero =
      IsEqual ? Select.getTrueValue() : Select.getFalseValue();
  return AtZero != Count;
}

// Whether a count is read by such a select alone, perhaps after a constant was
// added or its type was changed.
static bool isDropped(const Value *Count, const Value *X) {
  while (Count->hasOneUse()) {
    const User *U = *Count->user_begin();
    if (auto *Select = dyn_cast<SelectInst>(U))
      return takesOther(*Select, Count, X);
    bool IsStep = isa<CastInst>(U) || (isa<BinaryOperator>(U) &&
                                       isa<ConstantInt>(U->getOperand(1)));
    if (!IsStep)
      return false;
    Count = U;
  }
  return false;
}

// `__builtin_ffs(x)` and `__builtin_clzg(x, n)`: clang counts the zeros of x
// with the flag that says that x isn't 0, and takes another number by a select
// where it is. Without the flag the count of 0 is the type's width, a number
// that the select drops; of any other x it is the same. An unset bit of x that
// may make it 0 makes the select's condition unset, as before. Elsewhere the
// flag stays, and a count of 0 is a trap.
void lowerZeroCounts(Function &F) {
  for (IntrinsicInst *Count : allOfKind<IntrinsicInst>(F)) {
    Intrinsic::ID ID = Count->getIntrinsicID();
    if ((ID == Intrinsic::cttz || ID == Intrinsic::ctlz) &&
        isDropped(Count, Count->getArgOperand(0)))
      Count->setArgOperand(1, ConstantInt::getFalse(F.getContext()));
  }
}

} // namespace lower
