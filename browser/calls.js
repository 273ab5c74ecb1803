"use strict";
// vcm in a worker: calls, one after another, and their end before its time.

// The bytes of a text in base64 that are gzip's of others.
async function unpacked(text) {
  const packed = Uint8Array.from(atob(text), (it) => it.charCodeAt(0));
  const stream = new Blob([packed]).stream().pipeThrough(new DecompressionStream("gzip"));
  return new Uint8Array(await new Response(stream).arrayBuffer());
}

// Whether the browser has memories of WebAssembly with addresses of 64 bits: whether it takes the least module that has one.
function hasMemory64() {
  const least = Uint8Array.of(0, 97, 115, 109, 1, 0, 0, 0, 5, 3, 1, 4, 1);
  return typeof WebAssembly === "object" && WebAssembly.validate(least) && typeof DecompressionStream === "function";
}

// What a call that was ended before its time answers.
const ended = { isEnded: true };

class Vcm {
  constructor(module, workerText) {
    this.module = module;
    this.url = URL.createObjectURL(new Blob([workerText], { type: "text/javascript" }));
    this.waiting = new Map();
    this.calls = 0;
    this.begin();
  }
  begin() {
    this.worker = new Worker(this.url);
    this.worker.onmessage = (event) => {
      const done = this.waiting.get(event.data.id);
      this.waiting.delete(event.data.id);
      done(event.data);
    };
    this.worker.postMessage(this.module);
  }
  // Answers what vcm writes, and its exit status, to these words, with these files and this standard input.
  call(words, files, input) {
    const id = ++this.calls;
    return new Promise((done) => {
      this.waiting.set(id, done);
      this.worker.postMessage({ id, words, files, input });
    });
  }
  // Ends all calls that have not answered.
  end() {
    if (this.waiting.size === 0) return;
    this.worker.terminate();
    const waiting = [...this.waiting.values()];
    this.waiting.clear();
    this.begin();
    for (const done of waiting) done(ended);
  }
}
