"""cc_wrong.py WORK [NAME]...: wrong lowerings, each an edit of one file of cc/lower, and the tests that refuse it. Each is built into a copy of cc/ (with the
objects of `make -C cc`, but for that file), and is to fail on the tests that it names; the same tests are to pass without it.

A row that says `no longer there` wants its edit to be brought up to what cc/lower has become."""
import glob
import os
import shutil
import subprocess
import sys

import cc_run

constructs = cc_run.top + '/cc/tests/constructs'


class Wrong:
    def __init__(self, name, file, old, new, *tests):
        self.name, self.file, self.old, self.new, self.tests = name, file, old, new, tests


wrongs = [
    Wrong('a function pointer is not checked when unset', 'FunctionValues.cpp', 'Value *Callee = Call.getCalledOperand();',
          'Value *Callee = B.CreateFreeze(Call.getCalledOperand()); Call.setCalledOperand(Callee);', 'pointers P1'),
    Wrong('null is called without a trap', 'FunctionValues.cpp', 'B.CreateLoad(P.Int8, Callee, "callee");', '', 'pointers P1'),
    Wrong('the padding of a struct result comes out clean', 'Aggregates.cpp', '  storeParts(B, I.getReturnValue(), I.getFunction()->getArg(0));\n',
          '  for (auto [Part, L] : zip(parts(I.getReturnValue()), leaves(I.getReturnValue()->getType())))\n'
          '    B.CreateAlignedStore(L.Type->isIntegerTy() ? B.CreateFreeze(Part) : Part, B.at(I.getFunction()->getArg(0), L.Offset), Align(1));\n', 'results P2', 'results P3', 'carried'),
    Wrong('a variadic argument past the last is clean', 'Variadics.cpp', '  B.CreateLifetimeStart(Variable, sizeOf(*Variable, B));\n',
          '  B.CreateMemSet(Variable, B.getInt8(0), sizeOf(*Variable, B), Align(16));\n', 'too_many P1', 'too_many P2', 'variadic P2'),
    Wrong('a variadic argument past the last is one of an earlier call', 'Variadics.cpp', '  B.CreateLifetimeStart(Variable, sizeOf(*Variable, B));\n', '', 'too_many P1'),
    Wrong('argv is unset', 'Start.cpp', '    return argumentVector(P);\n',
          '    return frameVariable(*const_cast<Function *>(A.getParent()), ArrayType::get(P.Ptr, P.Chosen.Words.size() + 2), Align(16), "arguments");\n', 'arguments'),
    Wrong('a volatile read whose value nothing takes is dropped', 'Marks.cpp', 'void lowerVolatile(Program &P, Function &F) {\n',
          'void lowerVolatile(Program &P, Function &F) {\n  for (LoadInst *Load : allOfKind<LoadInst>(F))\n    if (Load->isVolatile() && Load->use_empty())\n      Load->eraseFromParent();\n',
          'volatiles P1', 'volatiles P2'),
    Wrong('a volatile write is dropped', 'Marks.cpp', 'void lowerVolatile(Program &P, Function &F) {\n',
          'void lowerVolatile(Program &P, Function &F) {\n  for (StoreInst *Store : allOfKind<StoreInst>(F))\n    if (Store->isVolatile() && Store->getFunction()->getName() == "touch")\n'
          '      Store->eraseFromParent();\n', 'volatiles'),
    Wrong('the flag of an overflow is clean of an unset operand', 'Overflow.cpp', '  return made(I, {Result, IsOver});\n', '  return made(I, {Result, B.CreateFreeze(IsOver)});\n',
          'overflow P1', 'overflow P2', 'overflow P3', 'overflow P5'),
    Wrong('an array of variable length keeps its last round\'s bytes', 'Marks.cpp', 'void lowerVolatile(Program &P, Function &F) {\n',
          'void lowerVolatile(Program &P, Function &F) {\n  for (AllocaInst *Array : allOfKind<AllocaInst>(F))\n    if (!isa<Constant>(Array->getArraySize()))\n'
          '      replace(Array, frameVariable(F, ArrayType::get(P.Int8, 4096), Align(16), "kept"));\n', 'vla P2'),
    Wrong('places are lost', 'Shorten.cpp', '  if (Place->getFile() != SP->getFile())\n    return Place;\n', '  return DebugLoc();\n', 'pointers P1', 'overflow P1', 'vla P2'),
    Wrong('what a lowering puts in has no place', 'FunctionValues.cpp', '  B.CreateLoad(P.Int8, Callee, "callee");', '  B.SetCurrentDebugLocation(DebugLoc());\n  B.CreateLoad(P.Int8, Callee, "callee");',
          'pointers P1'),
]


def built(wrong, work):
    """The folder of a copy of cc/ with this lowering, or what hinders it."""
    copy = f'{work}/cc'
    shutil.rmtree(copy, ignore_errors=True)
    shutil.copytree(cc_run.top + '/cc', copy, ignore=shutil.ignore_patterns('tests', 'library'))
    path = f'{copy}/lower/{wrong.file}'
    text = open(path).read()
    if text.count(wrong.old) != 1:
        return None, f'no longer there: {wrong.old.strip()[:60]}'
    with open(path, 'w') as out:
        out.write(text.replace(wrong.old, wrong.new))
    config = os.environ.get('LLVM_CONFIG', 'llvm-config-19')
    say = lambda *words: subprocess.check_output([config, *words], text=True).strip()
    flags = ['-std=c++17', '-fno-rtti', '-fno-exceptions', '-O0', '-w', '-isystem', say('--includedir'), '-D__STDC_CONSTANT_MACROS', '-D__STDC_FORMAT_MACROS', '-D__STDC_LIMIT_MACROS']
    ended = cc_run.run(['g++'] + flags + ['-c', path, '-o', f'{copy}/work/{wrong.file[:-4]}.o'], seconds=900)
    if ended.status:
        return None, 'not compiled: ' + ended.said[:500]
    objects = [f'{copy}/work/{os.path.basename(source)[:-4]}.o' for source in sorted(glob.glob(f'{copy}/lower/*.cpp'))]
    ended = cc_run.run(['g++'] + objects + ['-o', f'{copy}/msan-lower', '-L' + say('--libdir'), '-lLLVM-19'], seconds=300)
    return (copy, '') if ended.status == 0 else (None, 'not linked: ' + ended.said[:300])


def failures(tests, work, msan_cc):
    """Which of these tests fail with this msan-cc."""
    files = sorted({f'{constructs}/{test.split()[0]}.c' for test in tests})
    os.makedirs(f'{work}/out', exist_ok=True)
    ended = cc_run.run([sys.executable, cc_run.top + '/bench/cc_tests.py', f'{work}/out'] + files, seconds=900, environment={'MSAN_CC': msan_cc, 'MSAN': cc_run.msan, 'ONLY': ','.join(tests)})
    rows = [line for line in ended.out.decode().split('\n') if ' | ' in line]
    return {row.split(' | ')[0] for row in rows if row.endswith('| FAILED')}


def main():
    work, chosen = sys.argv[1], sys.argv[2:]
    table = cc_run.Table('wrong lowering', 'refused by')
    every = [wrong for wrong in wrongs if not chosen or any(word in wrong.name for word in chosen)]
    right = failures([test for wrong in every for test in wrong.tests], work, cc_run.msan_cc)
    for wrong in every:
        copy, hindered = built(wrong, work)
        if not copy:
            table.row(False, wrong.name, hindered)
            continue
        failed = failures(wrong.tests, work, f'{copy}/msan-cc')
        missed = [test for test in wrong.tests if test not in failed or test in right]
        table.row(not missed, wrong.name, ', '.join(sorted(failed)), why=[f'not refused by {test}' + (', which fails without it too' if test in right else '') for test in missed])
    return table.end()


if __name__ == '__main__':
    sys.exit(main())
