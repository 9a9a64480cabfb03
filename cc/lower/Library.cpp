// What msan has of its own, what the library has, and what neither has.
#include "Lowerings.h"
#include "llvm/ADT/StringSet.h"

using namespace llvm;

namespace lower {

// docs/MANUAL.md, "What isn't taken of C", names what msan has.
static const StringSet<> OfMsan = {
    "malloc",  "calloc",  "realloc",        "free",         "memcpy",
    "memmove", "memset",  "memcmp",         "strlen",       "putchar",
    "puts",    "getchar", "read",           "write",        "exit",
    "abort",   "printf",  "pthread_create", "pthread_join", "sched_yield"};
static const StringSet<> OnWords = {
    "ctpop",    "ctlz",     "cttz",     "bswap",    "bitreverse", "abs",
    "smax",     "smin",     "umax",     "umin",     "fshl",       "fshr",
    "uadd.sat", "usub.sat", "sadd.sat", "ssub.sat", "expect"};
static const StringSet<> OtherIntrinsics = {
    "llvm.memcpy.p0.p0.i64", "llvm.memmove.p0.p0.i64",
    "llvm.memset.p0.i64",    "llvm.lifetime.start.p0",
    "llvm.lifetime.end.p0",  "llvm.trap",
    "llvm.assume",           "llvm.objectsize.i64.p0"};

/// Whether msan has a function, or LLVM's of that name.
bool isTaken(const Function &F) {
  StringRef Name = F.getName();
  if (!Name.consume_front("llvm."))
    return OfMsan.contains(Name);
  auto [Word, Width] = Name.rsplit('.');
  bool IsWidth =
      Width == "i8" || Width == "i16" || Width == "i32" || Width == "i64";
  if (IsWidth && OnWords.contains(Word))
    return !(Word == "bswap" && Width == "i8");
  return OtherIntrinsics.contains(F.getName());
}

// Whether msan's own printf has each directive: docs/MANUAL.md, "printf".
static bool isPlainFormat(StringRef Format) {
  while (Format.contains('%')) {
    Format = Format.split('%').second;
    bool IsLong = Format.consume_front("l");
    StringRef Directives = IsLong ? "dux" : "duxcs%";
    if (Format.empty() || !Directives.contains(Format[0]))
      return false;
    Format = Format.drop_front();
  }
  return true;
}

static bool hasPlainFormat(const CallBase &Call) {
  auto *Global =
      dyn_cast<GlobalVariable>(Call.getArgOperand(0)->stripPointerCasts());
  if (!Global || !Global->isConstant() || !Global->hasInitializer())
    return false;
  auto *Bytes = dyn_cast<ConstantDataArray>(Global->getInitializer());
  return Bytes && Bytes->isCString() && isPlainFormat(Bytes->getAsCString());
}

// Another printf is the library's, in C, which is checked as the program is:
// it branches on each argument that it prints, as msan's own checks it.
static void choosePrintf(Module &M) {
  Function *Own = M.getFunction("printf"), *InC = M.getFunction("cc_printf");
  if (!Own || !Own->isDeclaration() || !InC)
    return;
  Own->replaceUsesWithIf(InC, [](Use &U) {
    auto *Call = dyn_cast<CallBase>(U.getUser());
    return !Call || !Call->isCallee(&U) || !hasPlainFormat(*Call);
  });
}

// A thread whose routine is a value is begun by the library's, which calls it
// through the pointer: the use of the pointer is that of such a call.
static void choosePthreadCreate(Module &M) {
  Function *Own = M.getFunction("pthread_create");
  Function *InC = M.getFunction("cc_pthread_create");
  if (!Own || !InC)
    return;
  Own->replaceUsesWithIf(InC, [](Use &U) {
    auto *Call = dyn_cast<CallBase>(U.getUser());
    return !Call || !Call->isCallee(&U) ||
           !isa<Function>(Call->getArgOperand(2)->stripPointerCasts());
  });
}

void chooseLibrary(Program &P) {
  choosePrintf(P.M);
  choosePthreadCreate(P.M);
  chooseKnowing(P);
}

// A call of a function that is in neither says so and traps, if that is asked
// for: the run up to there is the program's.
void trapAtMissing(Program &P) {
  FunctionCallee Puts = P.M.getOrInsertFunction("puts", P.Int32, P.Ptr);
  for (Function *F : P.bodies())
    for (CallInst *Call : allOfKind<CallInst>(*F)) {
      Function *Callee = Call->getCalledFunction();
      if (!Callee || !Callee->isDeclaration() || isTaken(*Callee) ||
          Callee->isIntrinsic())
        continue;
      std::string Text =
          ("msan-cc: '" + Callee->getName() + "' is missing").str();
      Constant *Bytes = ConstantDataArray::getString(P.Context, Text);
      Builder(Call).CreateCall(Puts, P.addGlobal(Bytes, true, "missing"));
      trapInstead(Call);
    }
}

} // namespace lower
