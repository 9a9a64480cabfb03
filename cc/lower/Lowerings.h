// The lowerings, file by file. README.md is the map; main.cpp has their order.
#ifndef MSAN_LOWER_LOWERINGS_H
#define MSAN_LOWER_LOWERINGS_H

#include "Program.h"

namespace lower {

// Marks.cpp
void dropLinkerMarks(Program &P);
void keepReached(Program &P);
void lowerThreadLocals(Program &P);
void runPassesOfLLVM(Program &P);
void lowerVolatile(Program &P, llvm::Function &F);

// Start.cpp
void lowerStart(Program &P);
/// Builds where `main` begins, in front of what was built there before.
struct StartBuilder : Builder {
  explicit StartBuilder(Program &P);
};

// Library.cpp
bool isTaken(const llvm::Function &F);
void chooseLibrary(Program &P);
void trapAtMissing(Program &P);

// Choices.cpp: used by Library.cpp
void chooseKnowing(Program &P);

// Signatures.cpp
void lowerUnprototypedCalls(Program &P, llvm::Function &F);
void lowerByVal(Program &P, llvm::Function &F);
void lowerSignatures(Program &P);

// Variadics.cpp, which is called by Signatures.cpp too
void lowerWideVaArg(llvm::Function &F);

// Intrinsics.cpp
void lowerIntrinsics(Program &P, llvm::Function &F);
void lowerZeroCounts(llvm::Function &F);

// Labels.cpp
void lowerLabels(Program &P);

// Constants.cpp
void lowerConstants(Program &P);
void lowerConstantOperands(Program &P, llvm::Function &F);

// Floats.cpp
void carryFloatsAsWords(Program &P);

// FunctionValues.cpp
void lowerFunctionValues(Program &P);

// WideIntegers.cpp
void lowerWideMemory(Program &P);
/// The type of a variable for values of a type.
llvm::Type *typeInMemory(const Program &P, llvm::Type *T);

// Parts.cpp
void lowerParts(Program &P, llvm::Function &F);

// Remaining.cpp
void complainOfRemaining(Program &P);
void complainOfMissingValue(Program &P, const llvm::Function &F);

// Shorten.cpp
void dropUnread(Program &P);
std::string textOf(llvm::Module &M);

} // namespace lower

#endif
