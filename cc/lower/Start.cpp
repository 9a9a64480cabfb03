// `main(argc, argv)`, constructors and destructors.
#include "Lowerings.h"
#include "llvm/IR/DebugInfoMetadata.h"

using namespace llvm;

namespace lower {

// argv: texts that may be written, as C says, and a null pointer behind them.
static GlobalVariable *argumentVector(Program &P) {
  std::vector<Constant *> Texts;
  auto Add = [&](StringRef Word) {
    Constant *Bytes = ConstantDataArray::getString(P.Context, Word);
    Texts.push_back(P.addGlobal(Bytes, false, "argument"));
  };
  Add("program");
  for (const std::string &Word : P.Chosen.Words)
    Add(Word);
  Texts.push_back(ConstantPointerNull::get(P.Ptr));
  auto *Type = ArrayType::get(P.Ptr, Texts.size());
  return P.addGlobal(ConstantArray::get(Type, Texts), false, "arguments");
}

static Value *argumentOfMain(Program &P, const Argument &A) {
  switch (A.getArgNo()) {
  case 0:
    return ConstantInt::get(A.getType(), P.Chosen.Words.size() + 1);
  case 1:
    return argumentVector(P);
  default: // char **envp: none
    return P.addGlobal(ConstantPointerNull::get(P.Ptr), false, "environment");
  }
}

// A `main` that the program calls itself stays, under another name, and is
// called by the one that the run begins with.
static Function *mainThatBegins(Program &P, Function &Own) {
  if (Own.use_empty())
    return &Own;
  Own.setName("main.called");
  Own.setLinkage(GlobalValue::InternalLinkage);
  auto *First = Function::Create(Own.getFunctionType(),
                                 GlobalValue::ExternalLinkage, "main", P.M);
  IRBuilder<NoFolder> B(BasicBlock::Create(P.Context, "entry", First));
  std::vector<Value *> Arguments;
  for (Argument &A : First->args())
    Arguments.push_back(&A);
  B.CreateRet(B.CreateCall(&Own, Arguments));
  return First;
}

// `main` without parameters: they are constants, so initialised, as C says
// that they are. What it returns and where that is checked stays.
static Function *withoutParameters(Program &P, Function &Main) {
  if (Main.arg_empty())
    return &Main;
  auto *New = Function::Create(FunctionType::get(P.Int32, false),
                               GlobalValue::ExternalLinkage, "", P.M);
  New->takeName(&Main);
  New->splice(New->begin(), &Main);
  New->setSubprogram(Main.getSubprogram());
  Main.setSubprogram(nullptr);
  for (Argument &A : Main.args())
    A.replaceAllUsesWith(argumentOfMain(P, A));
  Main.eraseFromParent();
  return New;
}

static Instruction *firstOf(Function &F) {
  Instruction *First = &F.getEntryBlock().front();
  while (isa<AllocaInst>(First))
    First = First->getNextNode();
  return First;
}

StartBuilder::StartBuilder(Program &P)
    : Builder(firstOf(*P.M.getFunction("main"))) {
  if (DISubprogram *SP = P.M.getFunction("main")->getSubprogram())
    SetCurrentDebugLocation(DILocation::get(P.Context, SP->getLine(), 0, SP));
}

// The functions of llvm.global_ctors or llvm.global_dtors by their priority;
// the list goes.
static std::vector<Function *> takeList(Module &M, StringRef Name) {
  std::vector<std::pair<uint64_t, Function *>> Found;
  GlobalVariable *List = M.getGlobalVariable(Name, true);
  if (!List)
    return {};
  if (auto *Rows = dyn_cast<ConstantArray>(List->getInitializer()))
    for (Value *V : Rows->operands()) {
      auto *Row = cast<ConstantStruct>(V);
      Value *Called = Row->getOperand(1)->stripPointerCasts();
      if (auto *F = dyn_cast<Function>(Called))
        Found.push_back(
            {cast<ConstantInt>(Row->getOperand(0))->getZExtValue(), F});
    }
  List->eraseFromParent();
  stable_sort(Found, [](auto &A, auto &B) { return A.first < B.first; });
  std::vector<Function *> Functions;
  for (auto &[Priority, F] : Found)
    Functions.push_back(F);
  return Functions;
}

// Calls and addresses of one function become those of another, but for those
// within it.
static void redirect(Module &M, StringRef From, StringRef To) {
  Function *Old = M.getFunction(From), *New = M.getFunction(To);
  if (!Old || !New)
    return;
  Old->replaceUsesWithIf(New, [&](Use &U) {
    auto *I = dyn_cast<Instruction>(U.getUser());
    return !I || I->getFunction() != New;
  });
}

// Destructors are what `atexit` is given first, so they are called last.
static void registerDestructors(Program &P) {
  StartBuilder B(P);
  Function *AtExit = P.M.getFunction("atexit");
  for (Function *F : takeList(P.M, "llvm.global_dtors"))
    if (AtExit)
      B.CreateCall(AtExit, F);
    else
      P.Errors.in(*F, "a destructor, without 'atexit' of the library");
}

static void callConstructors(Program &P) {
  StartBuilder B(P);
  for (Function *F : takeList(P.M, "llvm.global_ctors"))
    if (F->arg_empty())
      B.CreateCall(F);
    else
      P.Errors.in(*F, "a constructor with parameters");
}

// What `atexit` was given is called where `main` returns, and by `exit`.
static void callExitList(Program &P, Function &Main) {
  Function *AtExit = P.M.getFunction("atexit");
  Function *Finish = P.M.getFunction("cc_finish");
  if (!AtExit || AtExit->use_empty() || !Finish)
    return;
  for (ReturnInst *Return : allOfKind<ReturnInst>(Main))
    Builder(Return).CreateCall(Finish);
  redirect(P.M, "exit", "cc_exit");
}

// All of these are ordinary calls in `main`: they add nothing to what they
// call, and hide nothing of it.
void lowerStart(Program &P) {
  Function *Main = P.M.getFunction("main");
  if (!Main->getReturnType()->isIntegerTy(32))
    return P.Errors.in(*Main, "'main' returns no int");
  Main = withoutParameters(P, *mainThatBegins(P, *Main));
  callConstructors(P);
  registerDestructors(P); // in front of the constructors
  callExitList(P, *Main);
}

} // namespace lower
