// What can't be lowered, with its place in C.
#ifndef MSAN_LOWER_COMPLAINTS_H
#define MSAN_LOWER_COMPLAINTS_H

#include "llvm/ADT/Twine.h"
#include "llvm/IR/DebugLoc.h"
#include "llvm/IR/Instructions.h"
#include "llvm/Support/raw_ostream.h"
#include <set>
#include <string>
#include <tuple>

namespace lower {

/// Errors and warnings are collected and said at the end, sorted by place, each
/// place and cause once, in the form of clang's.
class Complaints {
public:
  /// About the whole program.
  void about(const llvm::Twine &What);
  /// About a function, at the line of its definition.
  void in(const llvm::Function &F, const llvm::Twine &What);
  /// About an instruction, at its place, or another that is nearer to it.
  void at(const llvm::Instruction &I, const llvm::Twine &What);
  void at(const llvm::Instruction &I, const llvm::DebugLoc &Place,
          const llvm::Twine &What);
  /// About a variable, at its declaration.
  void at(llvm::AllocaInst &Variable, const llvm::Twine &What);
  void at(const llvm::GlobalVariable &Global, const llvm::Twine &What);
  /// About what ends the run, if it is reached; it is lowered all the same.
  void warn(const llvm::Instruction &I, const llvm::Twine &What);
  /// A line below the errors, once.
  void note(const llvm::Twine &What) { Notes.insert(What.str()); }

  bool anyErrors() const { return HasErrors; }
  void say(llvm::raw_ostream &Out) const;

private:
  void add(llvm::StringRef File, unsigned Line, unsigned Column,
           const llvm::Twine &What, llvm::StringRef Kind = "error: ");

  // By file, line, column, cause; a line or column 0 is unknown.
  std::set<std::tuple<std::string, unsigned, unsigned, std::string>> Found;
  bool HasErrors = false;
  std::set<std::string> Notes;
};

} // namespace lower

#endif
