// Marks that say nothing to msan: for the linker, for the order of accesses,
// for threads and exceptions; and what nothing reaches.
#include "Lowerings.h"
#include "llvm/IR/IntrinsicInst.h"
#include "llvm/Passes/PassBuilder.h"
#include "llvm/Transforms/IPO/GlobalDCE.h"
#include "llvm/Transforms/Scalar/LowerAtomicPass.h"
#include "llvm/Transforms/Utils/BasicBlockUtils.h"
#include "llvm/Transforms/Utils/LowerInvoke.h"

using namespace llvm;

namespace lower {

static void dropAliases(Program &P) {
  for (GlobalAlias &Alias : make_early_inc_range(P.M.aliases())) {
    Alias.replaceAllUsesWith(Alias.getAliasee());
    Alias.eraseFromParent();
  }
  for (GlobalIFunc &Choice : P.M.ifuncs())
    P.Errors.about("'" + Choice.getName() + "' is an ifunc");
}

// The program is linked: who wins between definitions is settled, so a name
// stands for one object. An undefined weak one is null, as a linker makes it.
void dropLinkerMarks(Program &P) {
  if (!P.M.getModuleInlineAsm().empty())
    P.Errors.about("assembly outside functions");
  dropAliases(P);
  for (GlobalObject &Object : P.M.global_objects()) {
    Object.setComdat(nullptr);
    Object.setVisibility(GlobalValue::DefaultVisibility);
    Object.setSection("");
    Object.setPartition("");
    bool IsHere =
        Object.hasAvailableExternallyLinkage() || !Object.isDeclaration();
    bool IsNull = !IsHere && Object.hasExternalWeakLinkage();
    Object.setLinkage(IsHere && Object.getName() != "main"
                          ? GlobalValue::InternalLinkage
                          : GlobalValue::ExternalLinkage);
    if (IsNull)
      Object.replaceAllUsesWith(Constant::getNullValue(Object.getType()));
  }
  P.M.getComdatSymbolTable().clear();
  for (StringRef Name : {"llvm.used", "llvm.compiler.used"})
    if (GlobalVariable *List = P.M.getGlobalVariable(Name, true))
      List->eraseFromParent();
}

template <typename Pass> static void runPass(Module &M, Pass &&ThePass) {
  LoopAnalysisManager Loops;
  FunctionAnalysisManager Functions;
  CGSCCAnalysisManager Calls;
  ModuleAnalysisManager Modules;
  PassBuilder Builder;
  Builder.registerModuleAnalyses(Modules);
  Builder.registerCGSCCAnalyses(Calls);
  Builder.registerFunctionAnalyses(Functions);
  Builder.registerLoopAnalyses(Loops);
  Builder.crossRegisterProxies(Loops, Functions, Calls, Modules);
  ModulePassManager Passes;
  Passes.addPass(std::forward<Pass>(ThePass));
  Passes.run(M, Modules);
}

// Functions and variables that nothing reaches from `main` go: they can't run,
// so no use of theirs is lost.
void keepReached(Program &P) { runPass(P.M, GlobalDCEPass()); }

// With one thread a variable of each thread is a variable: it begins as the
// initialiser says and keeps its bits and masks.
void lowerThreadLocals(Program &P) {
  bool HasThreads = P.M.getFunction("pthread_create");
  for (GlobalVariable &Global : P.M.globals()) {
    if (!Global.isThreadLocal())
      continue;
    if (HasThreads)
      P.Errors.at(Global, "thread_local, in a program with threads");
    Global.setThreadLocal(false);
  }
}

// A volatile access stays as it is, once and in its place, since nothing here
// removes or moves one; only the mark goes.
void lowerVolatile(Program &P, Function &F) {
  for (Instruction &I : instructions(F))
    if (auto *Load = dyn_cast<LoadInst>(&I))
      Load->setVolatile(false);
    else if (auto *Store = dyn_cast<StoreInst>(&I))
      Store->setVolatile(false);
    else if (auto *Memory = dyn_cast<MemIntrinsic>(&I))
      Memory->setVolatile(ConstantInt::getFalse(P.Context));
}

// Atomic accesses become plain ones, each once and in its place: threads of
// msan change turns at thread calls alone. Calls with a way for exceptions
// become plain calls: C throws none. The blocks of that way go.
void runPassesOfLLVM(Program &P) {
  runPass(P.M, createModuleToFunctionPassAdaptor(LowerAtomicPass()));
  runPass(P.M, createModuleToFunctionPassAdaptor(LowerInvokePass()));
  for (Function *F : P.bodies()) {
    EliminateUnreachableBlocks(*F);
    F->setPersonalityFn(nullptr);
  }
}

} // namespace lower
