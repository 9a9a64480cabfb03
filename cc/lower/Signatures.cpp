// Calls and functions of types that msan leaves out. Structs by value, results
// and arguments that are no word, and variable arguments become pointers to
// where they stand.
#include "Lowerings.h"
#include "Variadics.h"

using namespace llvm;

namespace lower {

// Whether a call's arguments are those that a function's type wants, and its
// result too, unless nothing reads that.
static bool fits(const CallBase &Call, const FunctionType &Type) {
  unsigned Count = Type.getNumParams();
  if (Type.isVarArg() ? Call.arg_size() < Count : Call.arg_size() != Count)
    return false;
  for (unsigned K = 0; K < Count; K++)
    if (Call.getArgOperand(K)->getType() != Type.getParamType(K))
      return false;
  return Call.getType() == Type.getReturnType() || Call.use_empty();
}

// A call `f(1)` of a function that was declared as `int f()` has the type that
// the function has: the same arguments reach the same parameters. One that has
// no such type has no meaning in C, and is a trap.
void lowerUnprototypedCalls(Program &P, Function &F) {
  for (CallBase *Call : allOfKind<CallBase>(F)) {
    auto *Callee =
        dyn_cast<Function>(Call->getCalledOperand()->stripPointerCasts());
    if (!Callee || Call->getFunctionType() == Callee->getFunctionType())
      continue;
    if (fits(*Call, *Callee->getFunctionType())) {
      std::vector<Value *> Arguments(Call->arg_begin(), Call->arg_end());
      replace(Call, callInstead(Call, Callee, Arguments));
    } else {
      P.Errors.warn(*Call, "a call of '" + Callee->getName() +
                               "' with other types than it has is a trap, "
                               "where it is reached");
      trapInstead(Call);
    }
  }
}

// A struct as argument (byval) is copied by the caller, all its bytes with
// their masks, padding too. A copy is no use.
void lowerByVal(Program &P, Function &F) {
  for (CallBase *Call : allOfKind<CallBase>(F))
    for (unsigned K = 0; K < Call->getFunctionType()->getNumParams(); K++) {
      if (!Call->isByValArgument(K))
        continue;
      Type *Struct = Call->getParamByValType(K);
      MaybeAlign Known = Call->getParamAlign(K);
      Align Alignment =
          std::max(Known.valueOrOne(), P.Layout.getABITypeAlign(Struct));
      AllocaInst *Copy = frameVariable(F, Struct, Alignment, "copy");
      Builder(Call).CreateMemCpy(Copy, Alignment, Call->getArgOperand(K), Known,
                                 P.Layout.getTypeAllocSize(Struct));
      Call->setArgOperand(K, Copy);
      Call->removeParamAttr(K, Attribute::ByVal);
    }
  for (Argument &A : F.args())
    A.removeAttr(Attribute::ByVal);
}

namespace {

// One function's type and that which it gets: for a result in parts a pointer
// in front, to where the caller wants it; for an argument in parts a pointer
// in its place; for variable arguments a pointer at the end.
struct Signature {
  Signature(const Program &P, FunctionType &Old);

  FunctionType &Old;
  FunctionType *New;
  bool HasResult;

  bool isSame() const { return New == &Old; }
};

Signature::Signature(const Program &P, FunctionType &Old)
    : Old(Old), HasResult(isInParts(Old.getReturnType())) {
  std::vector<Type *> Parameters;
  if (HasResult)
    Parameters.push_back(P.Ptr);
  for (Type *Parameter : Old.params())
    Parameters.push_back(isInParts(Parameter) ? P.Ptr : Parameter);
  if (Old.isVarArg())
    Parameters.push_back(P.Ptr);
  New = FunctionType::get(HasResult ? P.Void : Old.getReturnType(), Parameters,
                          false);
}

// What the body reads in the place of its old argument: the new one, or a load
// of what that points to.
Value *argumentInBody(Argument &Old, Argument &New) {
  if (!isInParts(Old.getType()))
    return &New;
  Function &F = *New.getParent();
  IRBuilder<> B(&*F.getEntryBlock().getFirstInsertionPt());
  return B.CreateLoad(Old.getType(), &New, Old.getName());
}

Function *moveBody(Program &P, Function &Old, const Signature &S) {
  auto *New = Function::Create(S.New, GlobalValue::InternalLinkage, "", P.M);
  New->takeName(&Old);
  New->splice(New->begin(), &Old);
  New->setSubprogram(Old.getSubprogram());
  Old.setSubprogram(nullptr);
  for (Argument &A : Old.args()) {
    Argument *Moved = New->getArg(A.getArgNo() + S.HasResult);
    Moved->takeName(&A);
    A.replaceAllUsesWith(argumentInBody(A, *Moved));
  }
  if (S.HasResult)
    New->getArg(0)->setName("result");
  if (!S.Old.isVarArg())
    return New;
  Argument *Variable = New->getArg(New->arg_size() - 1);
  Variable->setName("variable");
  for (CallBase *Call : allOfKind<CallBase>(*New))
    if (Call->getIntrinsicID() == Intrinsic::vastart)
      startList(P, *Call, Variable);
  return New;
}

// A variable of the caller's frame for a value in parts.
AllocaInst *variableFor(Program &P, CallBase &Call, Type *T,
                        const Twine &Name) {
  return frameVariable(*Call.getFunction(), typeInMemory(P, T),
                       P.Layout.getABITypeAlign(T), Name);
}

void passPointers(Program &P, VariableArguments &Variables, CallBase &Call,
                  Function &Callee, const Signature &S) {
  Builder B(&Call);
  std::vector<Value *> Arguments;
  AllocaInst *Result = nullptr, *Variable = nullptr;
  if (S.HasResult) {
    Result = variableFor(P, Call, S.Old.getReturnType(), "result");
    Arguments.push_back(Result);
  }
  for (unsigned K = 0; K < S.Old.getNumParams(); K++) {
    Value *Given = Call.getArgOperand(K);
    if (isInParts(Given->getType())) {
      AllocaInst *Place = variableFor(P, Call, Given->getType(), "argument");
      B.CreateStore(Given, Place);
      Given = Place;
    }
    Arguments.push_back(Given);
  }
  if (S.Old.isVarArg()) {
    Variable = Variables.store(Call, B);
    Arguments.push_back(Variable);
  }
  Value *Direct = B.CreateCall(&Callee, Arguments);
  if (Variable)
    Variables.end(*Variable, B);
  replace(&Call, Result ? B.CreateLoad(S.Old.getReturnType(), Result) : Direct);
}

} // namespace

// A struct as result is written where the caller says, each part of it by a
// store, and read from there: all parts are written before each read, with
// their masks. An argument in parts goes the same way. No store or load is a
// use of what it moves.
void lowerSignatures(Program &P) {
  VariableArguments Variables(P);
  for (Function *F : P.bodies()) {
    Signature S(P, *F->getFunctionType());
    if (S.isSame())
      continue;
    Function *New = moveBody(P, *F, S);
    for (User *U : make_early_inc_range(F->users()))
      passPointers(P, Variables, *cast<CallBase>(U), *New, S);
    F->eraseFromParent();
  }
}

} // namespace lower
