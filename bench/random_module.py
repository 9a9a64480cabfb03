"""Prints a random module without undefined behaviour: each byte is initialised, each shift below its width, each divisor positive, each
flag kept, each access within its object, each loop and recursion bounded. So every tool must print the same.

Usage: random_module.py SEED
"""
import random
import sys

WIDTHS = [1, 8, 16, 32, 64, 3, 7, 13, 24, 33, 63]
COMMON = WIDTHS[:5]
BYTES = {8: 1, 16: 2, 32: 4, 64: 8}
ORDERS = ["eq", "ne", "ugt", "uge", "ult", "ule", "sgt", "sge", "slt", "sle"]
PRINTS = ["printf", "putchar", "write"]  # one of them a module: each has its own buffer in LLVM's interpreter
DECLARATIONS = """
declare i32 @printf(ptr noundef, ...)
declare i32 @putchar(i32 noundef)
declare i64 @write(i32, ptr, i64)
declare noalias ptr @malloc(i64) #0
declare void @free(ptr)
declare i64 @strlen(ptr nocapture)
declare i32 @memcmp(ptr, ptr, i64)
declare void @exit(i32) noreturn
declare void @llvm.memcpy.p0.p0.i64(ptr, ptr, i64, i1 immarg)
declare void @llvm.memmove.p0.p0.i64(ptr, ptr, i64, i1 immarg)
declare void @llvm.memset.p0.i64(ptr, i8, i64, i1 immarg)
attributes #0 = { nounwind }
"""


class Scope:
    """What can be named at a place: values by their width, and initialised objects with their sizes in bytes."""

    def __init__(self, values=None, objects=None):
        self.values = {width: list(values[width]) for width in WIDTHS} if values else {width: [] for width in WIDTHS}
        self.objects = list(objects or [])

    def inner(self):
        return Scope(self.values, self.objects)


class Body:
    """A function that is being written."""

    def __init__(self, rng, module, scope):
        self.rng, self.module, self.scope = rng, module, scope
        self.lines, self.block, self.names, self.loops = [], "entry", 0, 0

    # ---- names, operands, lines

    def fresh(self):
        self.names += 1
        return self.rng.choice(["v{}", "v{}", "a.{}", "_{}", '"b {}"']).format(self.names)

    def emit(self, text):
        self.lines.append(f"  {text}\n")

    def define(self, text):
        name = "%" + self.fresh()
        self.emit(f"{name} = {text}")
        return name

    def keep(self, width, name):
        self.scope.values[width].append(name)
        return name

    def open(self, label):
        self.lines.append(f"{label}:\n")
        self.block = label

    def constant(self, width):
        last = (1 << width) - 1
        number = self.rng.choice([0, 1, last, last >> 1, (last >> 1) + 1, self.rng.randint(0, last), self.rng.randint(0, min(last, 20))])
        if width == 1:
            return ["false", "true"][number & 1]
        return str(number if number <= last >> 1 or self.rng.random() < 0.5 else number - last - 1)

    def value(self, width):
        known = self.scope.values[width]
        return self.rng.choice(known) if known and self.rng.random() < 0.8 else self.constant(width)

    def below(self, width, bound):
        """A value of at most `bound`, which is one less than a power of two."""
        return self.define(f"and i{width} {self.value(width)}, {bound}")

    # ---- integers

    def arithmetic(self):
        width = self.rng.choice(WIDTHS)
        kind = self.rng.choice(["plain", "plain", "flags", "shift", "exact", "unsigned", "signed"])
        ty = f"i{width}"
        if kind == "flags" and width >= 7:
            half = (1 << (width // 2 - 1)) - 1
            left, right = self.below(width, half), self.below(width, half)
            op = self.rng.choice(["add nuw nsw", "mul nuw nsw", "sub nsw", "add nsw", "mul nuw"])
        elif kind == "shift":
            left, right = self.value(width), self.define(f"urem {ty} {self.value(width)}, {'true' if width == 1 else width}")
            op = self.rng.choice(["shl", "lshr", "ashr"])
        elif kind == "exact" and width >= 7:
            right = self.rng.randrange(width - 1)
            left = self.define(f"shl {ty} {self.value(width)}, {right}")
            op = self.rng.choice(["lshr exact", "ashr exact"])
        elif kind == "unsigned" and width >= 3:
            left, right = self.value(width), self.define(f"or {ty} {self.value(width)}, 1")
            op = self.rng.choice(["udiv", "urem"])
        elif kind == "signed" and width >= 7:
            left, right = self.value(width), self.define(f"or {ty} {self.below(width, (1 << (width - 2)) - 1)}, 1")
            op = self.rng.choice(["sdiv", "srem"])
        else:
            left, right = self.value(width), self.value(width)
            op = self.rng.choice(["add", "sub", "mul", "and", "or", "xor"])
        self.keep(width, self.define(f"{op} {ty} {left}, {right}"))

    def compare(self):
        width = self.rng.choice(WIDTHS)
        return self.keep(1, self.define(f"icmp {self.rng.choice(ORDERS)} i{width} {self.value(width)}, {self.value(width)}"))

    def cast(self):
        small, large = sorted(self.rng.sample(WIDTHS, 2))
        if self.rng.random() < 0.4:
            self.keep(small, self.define(f"trunc i{large} {self.value(large)} to i{small}"))
        elif self.rng.random() < 0.3 and small > 1:
            self.keep(large, self.define(f"zext nneg i{small} {self.below(small, (1 << (small - 1)) - 1)} to i{large}"))
        else:
            self.keep(large, self.define(f"{self.rng.choice(['zext', 'sext'])} i{small} {self.value(small)} to i{large}"))

    def select(self):
        width = self.rng.choice(WIDTHS)
        self.keep(width, self.define(f"select i1 {self.value(1)}, i{width} {self.value(width)}, i{width} {self.value(width)}"))

    # ---- memory

    def allocate(self):
        """A variable at the function's start, filled in one of three ways."""
        size = self.rng.choice([8, 16, 24, 64])
        ty = self.rng.choice([f"[{size} x i8]", f"[{size // 8} x i64]", f"[{size // 4} x i32]"])
        name = self.define(f"alloca {ty}, align {self.rng.choice([1, 4, 8, 16])}")
        sources = [known for known in self.scope.objects if known[1] >= size]
        if sources and self.rng.random() < 0.4:
            self.emit(f"call void @llvm.memcpy.p0.p0.i64(ptr {name}, ptr {self.rng.choice(sources)[0]}, i64 {size}, i1 false)")
        elif self.rng.random() < 0.3:
            self.emit(f"call void @llvm.memset.p0.i64(ptr align 1 {name}, i8 0, i64 {size}, i1 false)")
        else:
            for at in range(0, size, 8):
                self.emit(f"store i64 {self.value(64)}, ptr {self.element(name, at)}, align 1")
        self.scope.objects.append((name, size, True))

    def element(self, name, at):
        return self.define(f"getelementptr{self.rng.choice(['', ' inbounds'])} i8, ptr {name}, i64 {at}")

    def place(self, size, writable=False):
        """The address of this many bytes of an object; the number of bytes is a power of two."""
        name, whole, _ = self.rng.choice([known for known in self.scope.objects if known[1] >= size and (known[2] or not writable)])
        if self.rng.random() < 0.3:
            return self.element(name, self.rng.randrange(whole - size + 1))
        bound = 1
        while 2 * bound - 1 + size <= whole:
            bound *= 2
        index = self.below(64, bound - 1)
        if self.rng.random() < 0.3:
            return self.define(f"getelementptr inbounds [{whole} x i8], ptr {name}, i64 0, i64 {index}")
        return self.element(name, index)

    def load(self):
        width = self.rng.choice(list(BYTES))
        self.keep(width, self.define(f"load i{width}, ptr {self.place(BYTES[width])}, align 1"))

    def store(self):
        width = self.rng.choice(list(BYTES))
        self.emit(f"store i{width} {self.value(width)}, ptr {self.place(BYTES[width], True)}, align 1")

    def through_memory(self):
        """A word of any width, stored and loaded again, and overwritten: the rest of its last byte is unspecified."""
        width = self.rng.choice(WIDTHS)
        place = self.place(8, True)
        self.emit(f"store i{width} {self.value(width)}, ptr {place}, align 1")
        self.keep(width, self.define(f"load i{width}, ptr {place}, align 1"))
        self.emit(f"store i64 {self.value(64)}, ptr {place}, align 1")

    def copy(self):
        size = self.rng.choice([1, 2, 4, 8])
        target = self.place(size, True)
        if self.rng.random() < 0.4:
            self.emit(f"call void @llvm.memset.p0.i64(ptr {target}, i8 {self.value(8)}, i64 {size}, i1 false)")
        else:
            self.emit(f"call void @llvm.memmove.p0.p0.i64(ptr {target}, ptr {self.place(size)}, i64 {size}, i1 false)")

    def record(self):
        """A field of the global record, or an element of the field that is an array."""
        field, width = self.rng.choice([(0, 8), (1, 32), (2, 16), (3, 64)])
        element = f", i64 {self.below(64, 1)}" if field == 2 else ""
        place = self.define(f"getelementptr inbounds %record, ptr @record, i32 0, i32 {field}{element}")
        if self.rng.random() < 0.5:
            self.emit(f"store i{width} {self.value(width)}, ptr {place}")
        else:
            self.keep(width, self.define(f"load i{width}, ptr {place}"))

    def heap(self):
        """A block that is filled, read and freed."""
        size = self.rng.choice([8, 16, 40])
        block = self.define(f"call noalias ptr @malloc(i64 noundef {size})")
        self.emit(f"call void @llvm.memset.p0.i64(ptr {block}, i8 {self.value(8)}, i64 {size}, i1 false)")
        outer, self.scope = self.scope, self.scope.inner()
        self.scope.objects.append((block, size, True))
        self.store()
        loaded = self.define(f"load i64, ptr {block}")
        self.scope = outer
        self.emit(f"call void @free(ptr {block})")
        self.keep(64, loaded)

    # ---- calls

    def call(self):
        callee = self.rng.choice(self.module.functions)
        arguments = ", ".join(f"i{width} {self.value(width)}" for width in callee.parameters)
        result = self.define(f"{self.rng.choice(['', 'tail '])}call i{callee.result} @{callee.name}({arguments})")
        self.keep(callee.result, result)

    def external(self):
        if self.rng.random() < 0.5:
            self.keep(64, self.define("call i64 @strlen(ptr @text)"))
        else:
            order = self.define(f"call i32 @memcmp(ptr {self.place(8)}, ptr {self.place(8)}, i64 8)")
            self.keep(1, self.define(f"icmp {self.rng.choice(['eq', 'slt', 'sgt'])} i32 {order}, 0"))

    def print(self):
        if self.module.prints == "printf":
            directive, width = self.rng.choice([("d", 32), ("u", 32), ("x", 32), ("ld", 64), ("lu", 64), ("lx", 64), ("s", 0)])
            argument = f"i{width} {self.value(width)}" if width else "ptr noundef @text"
            self.emit(f"call i32 (ptr, ...) @printf(ptr @format.{directive}, {argument})")
        elif self.module.prints == "putchar":
            self.emit(f"call i32 @putchar(i32 {self.value(32)})")
        else:
            size = self.rng.choice([1, 2, 4, 8])
            self.emit(f"call i64 @write(i32 1, ptr {self.place(size)}, i64 {size})")

    # ---- control

    def arm(self, depth, width, join):
        """A block that leads to `join`, and an edge of its phi."""
        outer, self.scope = self.scope, self.scope.inner()
        self.statements(self.rng.randrange(4), depth + 1)
        edge = f"[ {self.value(width)}, %{self.block} ]"
        self.scope = outer
        self.emit(f"br label %{join}")
        return edge

    def meet(self, width, join, edges):
        self.open(join)
        self.keep(width, self.define(f"phi i{width} {', '.join(edges)}"))

    def branch(self, depth):
        width, yes, no, join = self.rng.choice(WIDTHS), self.fresh(), self.fresh(), self.fresh()
        self.emit(f"br i1 {self.compare()}, label %{yes}, label %{no}")
        edges = []
        for label in yes, no:
            self.open(label)
            edges.append(self.arm(depth, width, join))
        self.meet(width, join, edges)

    def switch(self, depth):
        width, word, join = self.rng.choice(WIDTHS), self.rng.choice([8, 32, 64]), self.fresh()
        labels = [self.fresh() for _ in range(self.rng.randint(1, 4))]
        cases = " ".join(f"i{word} {number}, label %{label}" for number, label in enumerate(labels[1:]))
        self.emit(f"switch i{word} {self.below(word, 3)}, label %{labels[0]} [ {cases} ]")
        edges = []
        for label in labels:
            self.open(label)
            edges.append(self.arm(depth, width, join))
        self.meet(width, join, edges)

    def loop(self, depth):
        width, head, latch, after = self.rng.choice(WIDTHS), self.fresh(), self.fresh(), self.fresh()
        before, start = self.block, self.value(width)
        counter, total, following = ("%" + self.fresh() for _ in range(3))
        self.emit(f"br label %{head}")
        self.open(head)
        outer, self.scope = self.scope, self.scope.inner()
        at = len(self.lines)
        self.keep(32, counter)
        self.keep(width, total)
        self.loops += 1
        self.statements(self.rng.randint(1, 4), depth + 1)
        self.loops -= 1
        result = self.value(width)
        self.scope = outer
        self.emit(f"br label %{latch}")
        self.open(latch)
        self.emit(f"{following} = add nuw nsw i32 {counter}, 1")
        again = self.define(f"icmp ult i32 {following}, {self.rng.randint(1, 4)}")
        self.emit(f"br i1 {again}, label %{head}, label %{after}")
        self.lines[at:at] = [f"  {counter} = phi i32 [ 0, %{before} ], [ {following}, %{latch} ]\n",
                             f"  {total} = phi i{width} [ {start}, %{before} ], [ {result}, %{latch} ]\n"]
        self.open(after)
        self.keep(width, total)

    def statements(self, count, depth=0):
        simple = [self.arithmetic] * 6 + [self.compare, self.cast, self.cast, self.select, self.load, self.load, self.store, self.store,
                  self.through_memory, self.copy, self.record, self.heap, self.external, self.print]
        nested = [self.branch, self.switch, self.loop]
        for _ in range(count):
            if depth < 3 and self.rng.random() < 0.2:
                self.rng.choice(nested)(depth)
            elif self.module.functions and self.loops < 2 and self.rng.random() < 0.1:
                self.call()
            else:
                self.rng.choice(simple)()


class Function:
    """A function whose body is random, or one that calls itself a few times first."""

    def __init__(self, rng, module, name):
        self.name, self.result = name, rng.choice(COMMON)
        self.parameters = [rng.choice(COMMON) for _ in range(rng.randrange(4))]
        scope = Scope(objects=module.objects)
        for index, width in enumerate(self.parameters):
            scope.values[width].append(f"%p{index}")
        body = Body(rng, module, scope)
        for _ in range(rng.randint(1, 3)):
            body.allocate()
        if rng.random() < 0.3:
            self.call_itself(body)
        body.statements(rng.randint(2, 10))
        linkage = rng.choice(["", "", "internal ", "dso_local "])
        parameters = ", ".join(f"i{width} {rng.choice(['', 'noundef '])}%p{index}" for index, width in enumerate(self.parameters))
        self.text = (f"define {linkage}i{self.result} @{name}({parameters}) {rng.choice(['', '#0 '])}{{\nentry:\n"
                     f"{''.join(body.lines)}  ret i{self.result} {body.value(self.result)}\n}}\n")

    def call_itself(self, body):
        """One more parameter says how often, at most three times."""
        depth = f"%p{len(self.parameters)}"
        self.parameters.append(32)
        again, join = body.fresh(), body.fresh()
        bounded = body.define(f"and i32 {depth}, 3")
        more = body.define(f"icmp ne i32 {bounded}, 0")
        before = body.block
        body.emit(f"br i1 {more}, label %{again}, label %{join}")
        body.open(again)
        less = body.define(f"sub i32 {bounded}, 1")
        arguments = ", ".join([f"i{width} {body.value(width)}" for width in self.parameters[:-1]] + [f"i32 {less}"])
        result = body.define(f"call i{self.result} @{self.name}({arguments})")
        body.emit(f"br label %{join}")
        body.meet(self.result, join, [f"[ {body.value(self.result)}, %{before} ]", f"[ {result}, %{again} ]"])


class Module:
    def __init__(self, seed):
        rng = random.Random(seed)
        self.prints = rng.choice(PRINTS)
        self.functions = []
        self.objects = [("@bytes", 16, True), ("@words", 32, True), ("@fixed", 16, False)]
        texts = []
        for index in range(rng.randrange(4)):
            function = Function(rng, self, f"f{index}")
            texts.append(function.text)
            self.functions.append(function)
        texts.append(self.main(rng))
        rng.shuffle(texts)
        self.text = "\n".join([self.globals(rng)] + texts) + DECLARATIONS

    def globals(self, rng):
        words = ", ".join(f"i32 {rng.randrange(-2**31, 2**31)}" for _ in range(8))
        characters = "".join(rng.choice(["a", "B", "7", " ", "\\01", "\\FF", "\\0A"]) for _ in range(16))
        formats = "".join(f'@format.{directive} = private unnamed_addr constant [{len(directive) + 3} x i8] c"%{directive} \\00"\n'
                          for directive in ["d", "u", "x", "ld", "lu", "lx", "s"])
        return ('target datalayout = "e-m:e-p270:32:32-p271:32:32-p272:64:64-i64:64-i128:128-f80:128-n8:16:32:64-S128"\n'
                'target triple = "x86_64-pc-linux-gnu"\n'
                f"%record = type {{ i8, i32, [2 x i16], i64 }}\n"
                f"@record = global %record {{ i8 1, i32 -2, [2 x i16] [i16 3, i16 4], i64 5 }}, align 8\n"
                f"@bytes = {rng.choice(['', 'internal ', 'dso_local '])}global [16 x i8] c\"{characters}\"\n"
                f"@words = global [8 x i32] [{words}], align {rng.choice([4, 16])}\n"
                f"@fixed = {rng.choice(['', 'private unnamed_addr '])}constant [2 x i64] [i64 -1, i64 {rng.randrange(2**63)}]\n"
                f'@text = private constant [6 x i8] c"text!\\00"\n{formats}')

    def main(self, rng):
        body = Body(rng, self, Scope(objects=self.objects))
        body.allocate()
        body.statements(rng.randint(8, 25))
        for _ in range(3):
            body.print()
        if rng.random() < 0.2:
            end = f"call void @exit(i32 {body.value(32)})\n  unreachable"
        else:
            end = f"ret i32 {body.value(32)}"
        return f"define i32 @main() {{\nentry:\n{''.join(body.lines)}  {end}\n}}\n"


if __name__ == "__main__":
    print(Module(int(sys.argv[1])).text, end="")
