// A shorter text: what msan reads over goes. Places and the names of variables
// stay.
#include "Lowerings.h"
#include "llvm/BinaryFormat/Dwarf.h"
#include "llvm/IR/DebugInfo.h"
#include "llvm/IR/DebugInfoMetadata.h"

using namespace llvm;

namespace lower {

// A place within its function, not within a block of it, unless that stands in
// another file.
static DebugLoc withoutBlock(Program &P, const DebugLoc &Place) {
  if (!Place)
    return Place;
  DISubprogram *SP = Place->getScope()->getSubprogram();
  if (Place->getFile() != SP->getFile())
    return Place;
  return DebugLoc(DILocation::get(P.Context, Place.getLine(), Place.getCol(),
                                  SP, Place.getInlinedAt()));
}

static void dropTypes(Program &P, DISubprogram &SP) {
  SP.replaceType(DISubroutineType::get(P.Context, DINode::FlagZero, 0,
                                       MDTuple::get(P.Context, {})));
  SP.replaceRetainedNodes(nullptr);
}

static void dropUnreadOf(Program &P, Instruction &I, Metadata *SomeType) {
  I.dropUnknownNonDebugMetadata();
  if (auto *Call = dyn_cast<CallBase>(&I))
    Call->setAttributes({});
  I.setDebugLoc(withoutBlock(P, I.getDebugLoc()));
  for (DbgVariableRecord &Record : filterDbgVars(I.getDbgRecordRange())) {
    Record.setDebugLoc(withoutBlock(P, Record.getDebugLoc()));
    DILocalVariable *Variable = Record.getVariable();
    if (Record.getDebugLoc())
      Variable->replaceOperandWith(0, Record.getDebugLoc()->getScope());
    Variable->replaceOperandWith(3, SomeType);
  }
}

static void dropUnreadOf(DICompileUnit &Unit) {
  Unit.replaceEnumTypes(nullptr);
  Unit.replaceRetainedTypes(nullptr);
  Unit.replaceGlobalVariables(nullptr);
  Unit.replaceImportedEntities(nullptr);
  Unit.replaceMacros(nullptr);
}

// Attributes, types of debug information and other metadata: no instruction
// goes, so no use.
void dropUnread(Program &P) {
  Metadata *SomeType =
      DIBasicType::get(P.Context, dwarf::DW_TAG_unspecified_type, "");
  for (NamedMDNode &List : make_early_inc_range(P.M.named_metadata()))
    if (List.getName() != "llvm.dbg.cu" &&
        List.getName() != "llvm.module.flags")
      List.eraseFromParent();
  for (GlobalVariable &Global : P.M.globals())
    Global.clearMetadata();
  for (Function &F : P.M) {
    F.setAttributes({});
    if (F.isDeclaration())
      F.clearMetadata();
    else if (DISubprogram *SP = F.getSubprogram())
      dropTypes(P, *SP);
    for (Instruction &I : instructions(F))
      dropUnreadOf(P, I, SomeType);
  }
  for (DICompileUnit *Unit : P.M.debug_compile_units())
    dropUnreadOf(*Unit);
}

// The text, without the comments of blocks.
static std::string shortText(const Module &M) {
  std::string All, Text;
  raw_string_ostream(All) << M;
  for (StringRef Rest = All; !Rest.empty();) {
    auto [Line, After] = Rest.split('\n');
    bool IsBlock = !Line.empty() && !StringRef(" @%!}").contains(Line[0]);
    Text += IsBlock ? Line.substr(0, Line.find("; preds = ")).rtrim() : Line;
    Text += '\n';
    Rest = After;
  }
  return Text;
}

// Numbers in place of the names of values, but of variables.
static void dropNames(Module &M) {
  for (Function &F : M)
    for (BasicBlock &Block : F) {
      Block.setName("");
      for (Instruction &I : Block)
        if (!isa<AllocaInst>(I))
          I.setName("");
    }
}

// What `msan check` takes: docs/MANUAL.md, "Limits".
static constexpr size_t LongestText = 4194304;

/// The text that is written; without names, if it is too long with them.
std::string textOf(Module &M) {
  M.setIsNewDbgInfoFormat(true);
  M.removeDebugIntrinsicDeclarations();
  std::string Text = shortText(M);
  if (Text.size() <= LongestText)
    return Text;
  dropNames(M);
  Text = shortText(M);
  if (Text.size() > LongestText)
    errs() << "msan-lower: warning: " << Text.size()
           << " bytes are more than `msan check` takes; `msan run` takes "
              "them\n";
  return Text;
}

} // namespace lower
