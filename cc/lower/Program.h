// The program that is lowered, and small things that several lowerings need.
#ifndef MSAN_LOWER_PROGRAM_H
#define MSAN_LOWER_PROGRAM_H

#include "Complaints.h"
#include "llvm/IR/IRBuilder.h"
#include "llvm/IR/InstIterator.h"
#include "llvm/IR/Module.h"
#include "llvm/IR/NoFolder.h"
#include <string>
#include <vector>

namespace lower {

/// What the caller of msan-lower chose.
struct Options {
  /// The program's arguments after its name.
  std::vector<std::string> Words;
  /// A call of a function that isn't there ends the run where it is reached;
  /// otherwise it is an error.
  bool MissingTraps = false;
  /// The same of floating-point arithmetic.
  bool FloatTraps = false;
};

/// The module, its types in words, and what has been complained of so far.
struct Program {
  Program(llvm::Module &M, const Options &Chosen);

  llvm::Module &M;
  llvm::LLVMContext &Context;
  const llvm::DataLayout &Layout;
  const Options &Chosen;
  Complaints Errors;
  llvm::IntegerType *Int8, *Int32, *Int64;
  llvm::PointerType *Ptr;
  llvm::Type *Void;

  /// The functions that have a body now; lowerings add others meanwhile.
  std::vector<llvm::Function *> bodies() const;
  /// A variable that no other file sees.
  llvm::GlobalVariable *addGlobal(llvm::Constant *Initial, bool IsConstant,
                                  const llvm::Twine &Name);
};

/// Builds in front of an instruction, with its place in C, and folds nothing,
/// so that each inserted instruction is one that the comment of its lowering
/// speaks of.
struct Builder : llvm::IRBuilder<llvm::NoFolder> {
  explicit Builder(llvm::Instruction *Before)
      : IRBuilder<llvm::NoFolder>(Before) {
    SetCurrentDebugLocation(Before->getDebugLoc());
  }
  /// The address that many bytes behind another.
  llvm::Value *at(llvm::Value *Address, uint64_t Offset) {
    return CreateConstGEP1_64(getInt8Ty(), Address, Offset);
  }
};

/// Whether a value is none of msan's words, but is moved in parts: a struct or
/// an array as one value, or an integer of more than 64 bits.
bool isInParts(const llvm::Type *T);

/// A variable of the function's frame: fresh, so uninitialised, at each call.
llvm::AllocaInst *frameVariable(llvm::Function &F, llvm::Type *Type,
                                llvm::Align Align, const llvm::Twine &Name);

/// Puts a value in the place of an instruction, which goes.
void replace(llvm::Instruction *Old, llvm::Value *New);

/// Puts a trap in the place of an instruction, whose result, if any, doesn't
/// matter then.
void trapInstead(llvm::Instruction *I);

/// A call of another function in front of a call.
llvm::CallInst *callInstead(llvm::CallBase *Call, llvm::FunctionCallee Callee,
                            llvm::ArrayRef<llvm::Value *> Arguments);

/// The instructions of a kind, so that one may be replaced while they are
/// walked.
template <typename Kind> std::vector<Kind *> allOfKind(llvm::Function &F) {
  std::vector<Kind *> Found;
  for (llvm::Instruction &I : llvm::instructions(F))
    if (auto *One = llvm::dyn_cast<Kind>(&I))
      Found.push_back(One);
  return Found;
}

} // namespace lower

#endif
