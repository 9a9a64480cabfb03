// What msan has and the library does too, where a program needs more of it.
#include "Lowerings.h"
#include "llvm/IR/Instructions.h"
#include "llvm/Transforms/Utils/BasicBlockUtils.h"
#include <set>

using namespace llvm;

namespace lower {

// What main leads to: functions, variables, constants.
static std::set<const Value *> reachedFromMain(Module &M) {
  std::set<const Value *> Reached;
  std::vector<const Value *> Open = {M.getFunction("main")};
  auto Add = [&](const User &U) {
    for (const Use &Operand : U.operands())
      if (isa<Constant>(Operand))
        Open.push_back(Operand);
  };
  while (!Open.empty()) {
    const Value *V = Open.back();
    Open.pop_back();
    if (!V || !Reached.insert(V).second)
      continue;
    if (auto *C = dyn_cast<Constant>(V))
      Add(*C);
    if (auto *F = dyn_cast<Function>(V))
      for (const Instruction &I : instructions(*F))
        Add(I);
  }
  return Reached;
}

// The library's function calls msan's, so its own call stays.
static void redirect(Module &M, StringRef Own, StringRef InC) {
  Function *From = M.getFunction(Own), *To = M.getFunction(InC);
  if (From && To)
    From->replaceUsesWithIf(To, [&](Use &U) {
      auto *I = dyn_cast<Instruction>(U.getUser());
      return !I || I->getFunction() != To;
    });
}

// Whether a function is begun as a thread alone, so that its `ret` ends one.
static bool isRoutine(const Function &F) {
  auto *Pointer = PointerType::get(F.getContext(), 0);
  return F.getFunctionType() == FunctionType::get(Pointer, Pointer, false) &&
         !F.use_empty() && all_of(F.uses(), [](const Use &U) {
           auto *Call = dyn_cast<CallBase>(U.getUser());
           Function *Callee = Call ? Call->getCalledFunction() : nullptr;
           return Callee && Callee->getName() == "pthread_create" &&
                  U.getOperandNo() == 2;
         });
}

// `pthread_exit` in a thread's routine is its return: the value is handed on
// as it is. Elsewhere the library's says that it is missing, but in `main`.
static void returnFromRoutines(Module &M) {
  Function *Exit = M.getFunction("pthread_exit");
  if (!Exit)
    return;
  for (User *U : make_early_inc_range(Exit->users())) {
    auto *Call = dyn_cast<CallInst>(U);
    if (!Call || Call->getCalledFunction() != Exit ||
        !isRoutine(*Call->getFunction()))
      continue;
    Builder(Call).CreateRet(Call->getArgOperand(0));
    BasicBlock *Rest = Call->getParent()->splitBasicBlock(Call, "left");
    Rest->getSinglePredecessor()->getTerminator()->eraseFromParent();
  }
}

// One thread has no other to yield to: `sched_yield` is 0.
static void dropYields(Module &M) {
  if (Function *Yield = M.getFunction("sched_yield"))
    for (User *U : make_early_inc_range(Yield->users()))
      if (auto *Call = dyn_cast<CallInst>(U);
          Call && Call->getCalledFunction() == Yield)
        replace(Call, ConstantInt::get(Call->getType(), 0));
}

// The library knows what was read before it was asked for, and who runs: where
// a program uses that, calls that would pass it by go to the library.
void chooseKnowing(Program &P) {
  struct Choice {
    StringRef Own, InC, Reached;
  };
  static const Choice All[] = {
      {"getchar", "cc_getchar", "stdin"},
      {"pthread_create", "cc_pthread_create", "cc_current"},
      {"pthread_join", "cc_pthread_join", "cc_current"},
      {"sched_yield", "cc_sched_yield", "cc_current"}};
  returnFromRoutines(P.M);
  std::set<const Value *> Reached = reachedFromMain(P.M);
  for (const Choice &C : All)
    if (Reached.count(P.M.getNamedValue(C.Reached)))
      redirect(P.M, C.Own, C.InC);
  if (!Reached.count(P.M.getFunction("pthread_create")))
    dropYields(P.M);
}

} // namespace lower
