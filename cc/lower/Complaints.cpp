#include "Complaints.h"
#include "llvm/IR/DebugInfo.h"
#include "llvm/IR/DebugInfoMetadata.h"
#include "llvm/IR/Function.h"
#include "llvm/IR/GlobalVariable.h"

using namespace llvm;

namespace lower {

void Complaints::add(StringRef File, unsigned Line, unsigned Column,
                     const Twine &What, StringRef Kind) {
  HasErrors |= Kind == "error: ";
  Found.insert({File.str(), Line, Column, (Kind + What).str()});
}

void Complaints::about(const Twine &What) { add("", 0, 0, What); }

void Complaints::in(const Function &F, const Twine &What) {
  if (DISubprogram *SP = F.getSubprogram())
    add(SP->getFilename(), SP->getLine(), 0, What);
  else
    about(What + ", in '" + F.getName() + "'");
}

void Complaints::at(const Instruction &I, const DebugLoc &Place,
                    const Twine &What) {
  if (Place)
    add(Place->getFilename(), Place.getLine(), Place.getCol(), What);
  else
    in(*I.getFunction(), What);
}

void Complaints::at(const Instruction &I, const Twine &What) {
  at(I, I.getDebugLoc(), What);
}

void Complaints::warn(const Instruction &I, const Twine &What) {
  if (const DebugLoc &Place = I.getDebugLoc())
    add(Place->getFilename(), Place.getLine(), Place.getCol(), What,
        "warning: ");
  else
    add("", 0, 0, What + ", in '" + I.getFunction()->getName() + "'",
        "warning: ");
}

void Complaints::at(AllocaInst &Variable, const Twine &What) {
  for (DbgVariableRecord *Record : findDVRDeclares(&Variable))
    return at(Variable, Record->getDebugLoc(),
              "variable '" + Record->getVariable()->getName() + "': " + What);
  for (User *U : Variable.users())
    if (auto *Use = dyn_cast<Instruction>(U); Use && Use->getDebugLoc())
      return at(Variable, Use->getDebugLoc(), What);
  at(Variable, Variable.getDebugLoc(), What);
}

void Complaints::at(const GlobalVariable &Global, const Twine &What) {
  std::string Text = ("variable '" + Global.getName() + "': " + What).str();
  SmallVector<DIGlobalVariableExpression *, 1> Known;
  Global.getDebugInfo(Known);
  if (Known.empty())
    return about(Text);
  DIGlobalVariable *Variable = Known[0]->getVariable();
  add(Variable->getFilename(), Variable->getLine(), 0, Text);
}

void Complaints::say(raw_ostream &Out) const {
  for (auto &[File, Line, Column, What] : Found) {
    if (!File.empty())
      Out << File << ':' << Line << ':';
    if (Column)
      Out << Column << ':';
    Out << (File.empty() ? "" : " ") << What << '\n';
  }
  for (const std::string &Note : Notes)
    Out << "note: " << Note << '\n';
}

} // namespace lower
