// msan-lower writes a linked C program, LLVM assembly or bitcode of clang 19,
// as the text that `msan` takes. README.md has the map.
#include "Lowerings.h"
#include "llvm/IR/LLVMContext.h"
#include "llvm/IR/Verifier.h"
#include "llvm/IRReader/IRReader.h"
#include "llvm/Support/FileSystem.h"
#include "llvm/Support/SourceMgr.h"

using namespace llvm;

namespace lower {

// Lowers the program, or fills its complaints. What a lowering leaves to a
// later one is said where the two are called.
static void lower(Program &P) {
  if (Function *Main = P.M.getFunction("main"); !Main || Main->isDeclaration())
    return P.Errors.about("there is no 'main'");
  dropLinkerMarks(P);
  lowerStart(P);
  chooseLibrary(P);
  keepReached(P); // so what can't run isn't complained of
  lowerThreadLocals(P);
  runPassesOfLLVM(P);
  for (Function *F : P.bodies()) {
    lowerUnprototypedCalls(P, *F);
    lowerVolatile(P, *F);
    lowerByVal(P, *F);
    lowerWideVaArg(*F);
    lowerIntrinsics(P, *F);
    lowerZeroCounts(*F);
  }
  lowerLabels(P);
  carryFloatsAsWords(P); // `long double` as an integer of 80 bits
  lowerWideMemory(P);    // whose values are left to lowerParts
  lowerConstants(P);
  lowerFunctionValues(P); // whose own functions have signatures too
  lowerSignatures(P);     // which leaves loads and stores for lowerParts
  for (Function *F : P.bodies()) {
    lowerParts(P, *F);
    lowerConstantOperands(P, *F); // those of the parts
  }
  keepReached(P);
  if (P.Chosen.MissingTraps)
    trapAtMissing(P);
  complainOfRemaining(P);
  dropUnread(P);
}

} // namespace lower

namespace {

constexpr StringLiteral Usage =
    "usage: msan-lower [--arg WORD]... [--missing-trap] [--float-trap] INPUT "
    "OUTPUT\n";

/// What the words of the call say; false if they say nothing.
bool readWords(ArrayRef<const char *> Words, lower::Options &Chosen,
               std::vector<std::string> &Files) {
  for (size_t K = 0; K < Words.size(); K++) {
    StringRef Word = Words[K];
    if (Word == "--arg" && K + 1 < Words.size())
      Chosen.Words.push_back(Words[++K]);
    else if (Word == "--missing-trap")
      Chosen.MissingTraps = true;
    else if (Word == "--float-trap")
      Chosen.FloatTraps = true;
    else if (Word.starts_with("--"))
      return false;
    else
      Files.push_back(Word.str());
  }
  return Files.size() == 2;
}

/// Whether addresses, numbers and structs lie in memory as msan has them.
bool isX86_64(const Module &M) {
  return M.getDataLayout().isLittleEndian() &&
         M.getDataLayout().getPointerSizeInBits() == 64 &&
         (M.getTargetTriple().empty() ||
          StringRef(M.getTargetTriple()).starts_with("x86_64"));
}

bool write(StringRef File, StringRef Text) {
  std::error_code Failed;
  raw_fd_ostream Out(File, Failed, sys::fs::OF_Text);
  if (!Failed)
    Out << Text;
  Out.close();
  return !Failed && !Out.has_error();
}

/// Lowers a file into another; the status of the program.
int lowerFile(StringRef From, StringRef To, const lower::Options &Chosen) {
  LLVMContext Context;
  Context.setDiscardValueNames(false);
  SMDiagnostic Fault;
  std::unique_ptr<Module> M = parseIRFile(From, Fault, Context);
  if (!M) {
    Fault.print("msan-lower", errs());
    return 2;
  }
  if (!isX86_64(*M)) {
    errs() << "error: the target is '" << M->getTargetTriple()
           << "', not x86-64\n";
    return 1;
  }
  M->setModuleIdentifier("msan-cc");
  lower::Program P(*M, Chosen);
  lower::lower(P);
  P.Errors.say(errs());
  if (P.Errors.anyErrors())
    return 1;
  if (verifyModule(*M, &errs())) {
    errs() << "msan-lower: the result is no valid module; nothing is written\n";
    return 2;
  }
  if (!write(To, lower::textOf(*M))) {
    errs() << "msan-lower: can't write " << To << '\n';
    return 2;
  }
  return 0;
}

} // namespace

int main(int Count, char **Words) {
  lower::Options Chosen;
  std::vector<std::string> Files;
  ArrayRef<const char *> Given(Words + 1, Words + Count);
  if (!readWords(Given, Chosen, Files)) {
    errs() << Usage;
    return 2;
  }
  return lowerFile(Files[0], Files[1], Chosen);
}
