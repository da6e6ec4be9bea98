// engine.cjs MODULE CASES ANSWERS: runs the cases by Node's engine. A case is the number of a function and 256 bytes of memory;
// an answer says whether the function ended by a trap, and has the bytes after it.
const fs = require("fs");
const [file, cases, answers] = process.argv.slice(2);
const SIZE = 256, AT = 1024;
const memory = new WebAssembly.Memory({ initial: 1, index: "u64" });
const stack = new WebAssembly.Global({ value: "i64", mutable: true }, 60000n);
const env = { __linear_memory: memory, __stack_pointer: stack };
const calls = new WebAssembly.Instance(new WebAssembly.Module(fs.readFileSync(file)), { env }).exports;
const given = fs.readFileSync(cases), bytes = Buffer.from(memory.buffer);
const made = Buffer.alloc(given.length / (SIZE + 4) * (SIZE + 1));
for (let from = 0, to = 0; from < given.length; from += SIZE + 4, to += SIZE + 1) {
    given.copy(bytes, AT, from + 4, from + 4 + SIZE);
    stack.value = 60000n;
    try {
        calls["t" + given.readUInt32LE(from)](BigInt(AT));
        bytes.copy(made, to + 1, AT, AT + SIZE);
    } catch (error) {
        if (!(error instanceof WebAssembly.RuntimeError)) throw error;
        made[to] = 1;
    }
}
fs.writeFileSync(answers, made);
