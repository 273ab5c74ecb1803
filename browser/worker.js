"use strict";
// Calls vcm, apart from the page, so that a long run leaves the page at work. The first message is the compiled module. Each other one is a call: words as on
// a command line, files by their names, and standard input; its answer has the exit status and what was written to standard output and standard error.

const encoder = new TextEncoder(), decoder = new TextDecoder();

// What the module asks of the page during one call: `browser/host.c` has the other side. Addresses and lengths are BigInts.
class Host {
  constructor(words, files, input) {
    this.words = ["vcm", ...words].map((it) => encoder.encode(it));
    this.files = files;
    this.inputs = new Map([[0, { bytes: input, at: 0 }]]);
    this.written = new Map([[1, []], [2, []]]);
    this.memory = null;
  }
  bytes(address, length) {
    return new Uint8Array(this.memory.buffer, Number(address), Number(length));
  }
  argument(number, to, most) {
    const word = this.words[Number(number)];
    if (word === undefined) return -1n;
    this.bytes(to, most).set(word.subarray(0, Number(most)));
    return word.length > Number(most) ? -2n : BigInt(word.length);
  }
  open(name, length) {
    const bytes = this.files[decoder.decode(this.bytes(name, length))];
    if (bytes === undefined) return -1;
    const file = this.inputs.size + 2;
    this.inputs.set(file, { bytes, at: 0 });
    return file;
  }
  read(file, to, most) {
    const input = this.inputs.get(file);
    if (input === undefined) return -1n;
    const part = input.bytes.subarray(input.at, input.at + Number(most));
    this.bytes(to, part.length).set(part);
    input.at += part.length;
    return BigInt(part.length);
  }
  write(file, from, length) {
    const parts = this.written.get(file);
    if (parts === undefined) return -1n;
    parts.push(this.bytes(from, length).slice());
    return length;
  }
  imports() {
    const call = (name) => (...given) => this[name](...given);
    return { page: { argument: call("argument"), open: call("open"), read: call("read"), write: call("write") } };
  }
  output(file) {
    const parts = this.written.get(file), whole = new Uint8Array(parts.reduce((sum, it) => sum + it.length, 0));
    let at = 0;
    for (const part of parts) {
      whole.set(part, at);
      at += part.length;
    }
    return whole;
  }
}

function answer(module, { id, words, files, input }) {
  const host = new Host(words, files || {}, input || new Uint8Array(0));
  try {
    const instance = new WebAssembly.Instance(module, host.imports());
    host.memory = instance.exports.memory;
    const status = instance.exports.run();
    const [out, err] = [host.output(1), host.output(2)];
    postMessage({ id, status, out, err, memory: host.memory.buffer.byteLength }, [out.buffer, err.buffer]);
  } catch (fault) {
    postMessage({ id, fault: String(fault) });
  }
}

let module = null;
onmessage = (event) => {
  if (module === null) module = event.data;
  else answer(module, event.data);
};
