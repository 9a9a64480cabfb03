// Variable arguments: words one after another, and the address of the first.
#ifndef MSAN_LOWER_VARIADICS_H
#define MSAN_LOWER_VARIADICS_H

#include "Program.h"
#include "llvm/ADT/DenseMap.h"

namespace lower {

/// Where callers put variable arguments: one variable of each frame, since the
/// arguments of one call at a time stand in it.
class VariableArguments {
public:
  explicit VariableArguments(Program &P) : P(P) {}

  /// Stores those of a call; the variable that they are in.
  llvm::AllocaInst *store(llvm::CallBase &Call, Builder &B);
  void end(llvm::AllocaInst &Variable, Builder &B);

private:
  llvm::AllocaInst *variableOf(llvm::Function &Caller);
  llvm::ConstantInt *sizeOf(llvm::AllocaInst &Variable, Builder &B);

  Program &P;
  // By the caller's first block, which stays when its signature changes.
  llvm::DenseMap<llvm::BasicBlock *, llvm::AllocaInst *> Variables;
};

/// Lowers a `va_start` in a function that is given the address of its variable
/// arguments.
void startList(Program &P, llvm::CallBase &Start, llvm::Value *Variable);

} // namespace lower

#endif
