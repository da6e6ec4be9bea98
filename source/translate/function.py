"""Translates a function: control, locals, calls and memory. Labels and jumps stay as they are, since WebAssembly has no others."""
from dataclasses import dataclass

from .body import Body
from .errors import Unknown, check
from .instructions import InstructionReader
from .object_file import ADDRESS_CONSTANT, ADDRESS_OFFSET, FUNCTION_INDEX, GLOBAL_INDEX, STACK_POINTER
from .opcode import C_TYPES
from .values import Value, address, combined, constant, number, value_of

FRAME = "frame"
VARIABLES = ("i32", "i64", "f32", "f64", "v128")


@dataclass
class Block:
    is_loop: bool
    result: Value  # the temporary of its result, or None
    height: int
    label: str
    line: int
    is_used: bool = False


class FunctionTranslator:
    def __init__(self, module, function):
        self.module, self.function = module, function
        self.types = list(function.parameters) + function.locals
        self.body, self.blocks, self.labels = Body(), [], 0
        self.frame_size, self.frame_align = 0, 16
        self.frame_locals = {}  # locals that are the frame's address, or one in it, and are set once
        self.frame_copies = {}  # other locals that have been, and what they are if nothing can have changed it since
        self.instructions, self.at = InstructionReader(module.object, function).read_all(), 0
        self.set_counts = self.count_sets()

    def count_sets(self):
        """How often each local is set, a parameter once by the caller."""
        counts = [int(number < len(self.function.parameters)) for number in range(len(self.types))]
        for instruction in self.instructions:
            if instruction.opcode.name in ("local.set", "local.tee"):
                counts[instruction.immediate] += 1
        return counts

    def text(self):
        while self.at < len(self.instructions):
            instruction = self.instructions[self.at]
            self.at += 1
            try:
                self.translate(instruction)
            except Unknown as unknown:
                raise Unknown(f"{instruction.opcode.name} at byte {instruction.at}: {unknown}") from None
        return "\n".join(self.head(self.body.drop_unread()) + self.body.lines + ["}", ""])

    def head(self, read):
        """The lines before the body, for the variables that are read."""
        parameters = range(len(self.function.parameters))
        lines = [f"static {self.module.signature(self.function, [f'l{number}' for number in parameters])}", "{"]
        if any(FRAME in line for line in self.body.lines):
            lines.append(f"    PEF__ALIGNED({self.frame_align}) u8 {FRAME}[{self.frame_size}];")
        assigned = {line.split()[0] for line in self.body.lines if line.startswith("    l") and " = " in line}
        for type in VARIABLES:
            zero = "{0}" if type == "v128" else "0"
            names = [f"l{number} = {zero}" for number, own in enumerate(self.types)
                     if own == type and number not in parameters and (f"l{number}" in read or f"l{number}" in assigned)]
            names += [name for name, own in self.body.temporaries.items() if own == type and name in read]
            lines += [f"    {C_TYPES[type]} {', '.join(names[at:at + 12])};" for at in range(0, len(names), 12)]
        lines += [f"    (void)l{number};" for number in parameters if f"l{number}" not in read and f"l{number}" not in assigned]
        return lines

    def translate(self, instruction):
        opcode = instruction.opcode
        if opcode.name in HANDLERS:
            HANDLERS[opcode.name](self, instruction)
        elif opcode.touches_memory:
            self.access(instruction)
        elif opcode.immediate in ("lane", "16 lanes"):
            self.with_lane(instruction)
        else:
            parts = self.body.pop(len(opcode.parameters))
            masks = opcode.name == "i64.and" and parts[0].base == FRAME and parts[1].bits
            check(not masks or parts[1].bits < 1 << 63, "a frame that is aligned later")
            self.body.push(value_of(opcode, parts))

    # --- control ---

    def enter(self, instruction):
        self.body.settle_all()
        self.forget_copies()
        result = self.body.temporary(instruction.immediate) if instruction.immediate else None
        self.blocks.append(Block(instruction.opcode.name == "loop", result, len(self.body.stack), f"L{self.labels}",
                                 len(self.body.lines)))
        self.body.lines.append(None)  # where a loop's label goes
        self.labels += 1

    def end(self, instruction):
        if not self.blocks:
            if self.body.stack and self.function.results:
                self.body.line(self.returned())
            return
        self.forget_copies()
        block = self.blocks.pop()
        if block.result and len(self.body.stack) > block.height:
            self.body.line(f"{block.result.text} = {self.body.stack[-1].typed()};")
        del self.body.stack[block.height:]
        if block.is_used:
            if block.is_loop:
                self.body.lines[block.line] = f"{block.label}:;"
            else:
                self.body.lines.append(f"{block.label}:;")
        if block.result:
            self.body.stack.append(block.result)

    def returned(self):
        return f"return {self.body.stack[-1].typed()};" if self.function.results else "return;"

    def jump(self, depth):
        if depth == len(self.blocks):
            return self.returned()
        block = self.blocks[-1 - depth]
        block.is_used = True
        if block.is_loop or not block.result:
            return f"goto {block.label};"
        return f"{{ {block.result.text} = {self.body.stack[-1].typed()}; goto {block.label}; }}"

    def skip(self):
        """Skips what isn't reached, up to the end of this block."""
        del self.body.stack[self.blocks[-1].height if self.blocks else 0:]
        depth = 0
        while self.at < len(self.instructions):
            name = self.instructions[self.at].opcode.name
            if name == "end" and not depth:
                return
            depth += {"block": 1, "loop": 1, "end": -1}.get(name, 0)
            self.at += 1

    def branch(self, instruction):
        self.body.line(self.jump(instruction.immediate))
        self.skip()

    def branch_if(self, instruction):
        condition, = self.body.pop(1)
        self.body.line(f"if ({condition.condition()}) {self.jump(instruction.immediate)}")

    def branch_table(self, instruction):
        value, = self.body.pop(1)
        depths, other = instruction.immediate
        self.body.line(f"switch ({value.typed()}) {{")
        for depth in dict.fromkeys(depths):
            if depth != other:
                cases = " ".join(f"case {case}:" for case, own in enumerate(depths) if own == depth)
                self.body.line(f"{cases} {self.jump(depth)}")
        self.body.line(f"default: {self.jump(other)}")
        self.body.line("}")
        self.skip()

    def leave(self, instruction):
        self.body.line(self.returned())
        self.skip()

    def trap(self, instruction):
        self.body.line("TRAP();")
        self.skip()

    def call(self, instruction):
        check(instruction.relocation and instruction.relocation.kind == FUNCTION_INDEX, "a call without a symbol")
        callee = self.module.function_of(instruction.relocation)
        arguments = self.body.pop(len(callee.parameters))
        self.body.settle_memory()
        text = f"{self.module.names[id(callee)]}({', '.join(argument.typed() for argument in arguments)})"
        if callee.results:
            self.body.stack.append(self.body.hold(Value(text, callee.results[0]), is_call=True))
        else:
            self.body.line(f"{text};")

    # --- values ---

    def drop(self, instruction):
        self.body.pop(1)

    def select(self, instruction):
        first, second, condition = self.body.pop(3)
        text = f"{condition.condition()} ? {first.atom()} : {second.atom()}"
        self.body.push(combined(text, first.type, (condition, first, second)))

    def integer_constant(self, instruction):
        relocation = instruction.relocation
        if not relocation:
            self.body.push(constant(instruction.immediate, instruction.opcode.name[:3]))
            return
        check(relocation.kind == ADDRESS_CONSTANT, f"a relocation of kind {relocation.kind}")
        self.body.push(address(*self.module.place_of(relocation)))

    def float_constant(self, instruction):
        type = instruction.opcode.name[:3]
        bits = number(instruction.immediate, "i32" if type == "f32" else "i64")
        self.body.push(Value(f"{type}_of({bits})", type, is_atom=True))

    def vector_constant(self, instruction):
        self.body.push(Value(vector(instruction.immediate), "v128", is_atom=True))

    def with_lane(self, instruction):
        parts = self.body.pop(len(instruction.opcode.parameters))
        lane = instruction.immediate
        text = instruction.opcode.form.format(*(part.typed() for part in parts), lane=vector(lane) if isinstance(lane, tuple) else lane)
        self.body.push(combined(text, instruction.opcode.result, parts, is_atom=True))

    # --- locals and the frame ---

    def local(self, number):
        known = self.frame_locals.get(number) or self.frame_copies.get(number)
        return known or Value(f"l{number}", self.types[number], is_atom=True, locals=frozenset([number]))

    def forget_copies(self):
        """Control comes together here, or a part begins that may be left or run again."""
        self.frame_copies = dict.fromkeys(self.frame_copies)

    def get_local(self, instruction):
        self.body.push(self.local(instruction.immediate))

    def set_local(self, instruction):
        number, (value,) = instruction.immediate, self.body.pop(1)
        if value.base == FRAME and self.set_counts[number] == 1 and not self.blocks:
            self.frame_locals[number] = value  # no local in C
        elif value.text != f"l{number}":
            self.body.settle(lambda other: number in other.locals)
            self.body.line(f"l{number} = {value.typed()};")
            if number in self.frame_copies:
                self.frame_copies[number] = None
            if value.base == FRAME:
                self.frame_copies[number] = value
        if instruction.opcode.name == "local.tee":
            self.body.push(self.local(number))

    def get_stack_pointer(self, instruction):
        """The stack pointer less a size is a local array. The size is taken off at once, or later from a local."""
        self.check_stack_pointer(instruction)
        names = [each.opcode.name for each in self.instructions[self.at:self.at + 4]]
        immediates = [each.immediate for each in self.instructions[self.at:self.at + 4]]
        check(not self.frame_size, "a second frame")
        if names[:1] in (["local.set"], ["local.tee"]):
            self.frame_size = self.size_from(immediates[0])
            self.body.push(address(FRAME, self.frame_size, self.frame_size))
            return
        check(names[:2] == ["i64.const", "i64.sub"], "not for a frame")
        self.at, self.frame_size = self.at + 2, immediates[0]
        if names[2:] == ["i64.const", "i64.and"] and immediates[2] < 0:
            self.at, self.frame_align = self.at + 2, max(16, -immediates[2])
        self.body.push(address(FRAME, 0, self.frame_size))

    def size_from(self, number):
        """The size that is taken off a local, as long as it is the stack pointer."""
        wanted = [("local.get", number), ("i64.const", None), ("i64.sub", None)]
        for at in range(self.at + 1, len(self.instructions) - 2):
            three = self.instructions[at:at + 3]
            if all(each.opcode.name == name and own in (None, each.immediate) for each, (name, own) in zip(three, wanted)):
                return three[1].immediate
            if three[0].opcode.name in ("local.set", "local.tee") and three[0].immediate == number:
                break
        raise Unknown("not for a frame")

    def set_stack_pointer(self, instruction):
        self.check_stack_pointer(instruction)
        value, = self.body.pop(1)
        base, _, offset = value.text.partition(" + ")
        copies = {f"l{number}" for number in self.frame_copies}
        check(value.base == FRAME or base in copies and offset[:-1].isdigit() | (not offset), "neither to the frame nor back")
        check((value.offset if value.base else int(offset[:-1] or 0)) in (0, self.frame_size), "neither to the frame nor back")

    def check_stack_pointer(self, instruction):
        relocation = instruction.relocation
        check(relocation and relocation.kind == GLOBAL_INDEX, "a global without a symbol")
        check(self.module.object.globals[self.module.object.symbols[relocation.symbol].index] == STACK_POINTER, "another global")

    # --- memory ---

    def pointer(self, value, relocation, offset):
        """The place of an access as a pointer."""
        if relocation:
            check(relocation.kind == ADDRESS_OFFSET, f"a relocation of kind {relocation.kind}")
            base = address(*self.module.place_of(relocation))
            if value.bits is not None:
                return base.moved(value.bits).pointer()
            return f"P({base.plain()} + {value.atom()})"
        if value.base is not None:
            return value.moved(offset).pointer()
        return f"P({value.atom()} + {offset}u)" if offset else f"P({value.typed()})"

    def access(self, instruction):
        opcode, relocation = instruction.opcode, instruction.relocation
        offset, lane = instruction.immediate if isinstance(instruction.immediate, tuple) else (instruction.immediate, None)
        parts = self.body.pop(len(opcode.parameters))
        is_read = opcode.result and ".atomic." not in opcode.name
        if not is_read:
            self.body.settle_memory()
        operands = [part.atom() if f"){{{at}}}" in opcode.form else part.typed() for at, part in enumerate(parts)][1:]
        text = opcode.form.format(self.pointer(parts[0], relocation, offset), *operands, lane=lane)
        if is_read:
            self.body.push(combined(text, opcode.result, parts, is_atom=text[0] != "(", depends=True))
        elif opcode.result:
            self.body.stack.append(self.body.hold(Value(text, opcode.result), is_call=True))
        else:
            self.body.line(f"{text};")

    def copy(self, instruction):
        to, source, count = self.body.pop(3)
        self.body.settle_memory()
        self.body.line(f"move({self.pointer(to, None, 0)}, {self.pointer(source, None, 0)}, {count.typed()});")

    def fill(self, instruction):
        to, byte, count = self.body.pop(3)
        self.body.settle_memory()
        self.body.line(f"fill({self.pointer(to, None, 0)}, {byte.typed()}, {count.typed()});")

    def fence(self, instruction):
        self.body.settle_memory()
        self.body.line("atomic_fence();")


def vector(halves):
    return f"v128_of({number(halves[0], 'i64')}, {number(halves[1], 'i64')})"


HANDLERS = {
    "unreachable": FunctionTranslator.trap, "nop": lambda self, instruction: None, "block": FunctionTranslator.enter,
    "loop": FunctionTranslator.enter, "end": FunctionTranslator.end, "br": FunctionTranslator.branch,
    "br_if": FunctionTranslator.branch_if, "br_table": FunctionTranslator.branch_table, "return": FunctionTranslator.leave,
    "call": FunctionTranslator.call, "drop": FunctionTranslator.drop, "select": FunctionTranslator.select,
    "local.get": FunctionTranslator.get_local, "local.set": FunctionTranslator.set_local,
    "local.tee": FunctionTranslator.set_local, "global.get": FunctionTranslator.get_stack_pointer,
    "global.set": FunctionTranslator.set_stack_pointer, "i32.const": FunctionTranslator.integer_constant,
    "i64.const": FunctionTranslator.integer_constant, "f32.const": FunctionTranslator.float_constant,
    "f64.const": FunctionTranslator.float_constant, "v128.const": FunctionTranslator.vector_constant,
    "memory.copy": FunctionTranslator.copy, "memory.fill": FunctionTranslator.fill, "atomic.fence": FunctionTranslator.fence,
}
