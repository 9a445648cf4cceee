"use strict";
// The program in the page: a WebAssembly module with one call, acpins_run, and the memory that it works in. Addresses are BigInts, since
// the memory has 64-bit addresses. A view of it is made anew behind each call, which may have made the memory larger.

const NO_ROOM = 4, FIRST_ROOM = 1 << 22;

class Program {
  constructor(compiled) {
    this.compiled = compiled;
  }

  // The module, by its bytes in base64.
  static async of(base64) {
    return new Program(await WebAssembly.compile(Uint8Array.from(atob(base64), (it) => it.charCodeAt(0))));
  }

  // A new memory for the next run. Nothing of an earlier one is left in it: neither what that one kept, nor its stack where it was cut off.
  reset() {
    this.calls = new WebAssembly.Instance(this.compiled, {}).exports;
    this.calls.page_reset();
  }

  room(size) {
    const at = this.calls.page_alloc(BigInt(size));
    if (at === 0n) throw new Error("the browser gives no more memory");
    return at;
  }

  bytes(at, size) {
    return new Uint8Array(this.calls.memory.buffer, Number(at), Number(size));
  }

  // A text or bytes into memory: an address and a length.
  put(data) {
    const bytes = typeof data === "string" ? new TextEncoder().encode(data) : data, at = this.room(bytes.length);
    this.bytes(at, bytes.length).set(bytes);
    return [at, BigInt(bytes.length)];
  }

  // Numbers of 64 bits into memory; their address.
  numbers(list) {
    const at = this.room(8 * list.length), view = new DataView(this.calls.memory.buffer, Number(at), 8 * list.length);
    list.forEach((it, i) => view.setBigUint64(8 * i, it, true));
    return at;
  }

  // A list of texts, each an address and a length: the address of the first, and their number.
  texts(list) {
    return [this.numbers(list.flatMap((it) => this.put(it))), BigInt(list.length)];
  }

  // A run of the program. Files are {name, bytes}, folders {name, names}. The answer has the program's status and what it prints, the
  // page that it writes, or the line of its failure. It throws where the browser's stack or memory ends.
  run(words, files, folders = [], room = FIRST_ROOM) {
    this.reset();
    const lentFiles = this.numbers(files.flatMap((it) => [...this.put(it.name), ...this.put(it.bytes)]));
    const lentFolders = this.numbers(folders.flatMap((it) => [...this.put(it.name), ...this.texts(it.names)]));
    const length = this.numbers([0n]), at = this.room(room);
    const status = this.calls.acpins_run(
      ...this.texts(words), lentFiles, BigInt(files.length), lentFolders, BigInt(folders.length), at, BigInt(room), length);
    const size = new DataView(this.calls.memory.buffer, Number(length), 8).getBigUint64(0, true);
    if (status === NO_ROOM) return this.run(words, files, folders, Number(size));
    return { status, bytes: this.bytes(at, size).slice(), most: Number(this.calls.page_most()) };
  }
}
