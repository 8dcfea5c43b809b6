// The module passkey.wasm and its memory. Nothing of one call is left in it for the next.
import { BYTES } from "./layout.js";
import { NoMemory } from "./errors.js";

// The version of c/passkey.h that this package calls; it is part of the calls' names.
const ABI_VERSION = 5;
// The most bytes that a call lends and its buffers have: this keeps the module's memory below 64 MB.
export const MOST_LENT = 4 * 1024 * 1024;
// A module whose memory has grown beyond this is dropped after the call, so that later calls have little to overwrite.
const MOST_KEPT = 512 * 1024;
const FIRST_SIZE = 1280;
// The bytes of stack that a module has at first, which suffice for each call. A call that needed more would trap, and is repeated with the
// whole stack. So there is less to overwrite.
const USUAL_STACK = 32 * 1024;

function isTrap(error) {
  return error instanceof WebAssembly.RuntimeError || error instanceof RangeError;
}

// The bytes of an image that has ended, all 0, for the next one.
let spare = null;

/** The struct of a call with all that it lends, copied when it was lent. Flags and counts are 0 at first. */
export class Image {
  constructor(size) {
    this.view = spare ?? new DataView(new ArrayBuffer(FIRST_SIZE));
    spare = null;
    this.bytes = new Uint8Array(this.view.buffer);
    this.used = size;
    this.pointers = [];
  }

  /** Overwrites it. It cannot be used afterwards. */
  end() {
    this.bytes.fill(0, 0, this.used);
    if (this.bytes.length === FIRST_SIZE) spare = this.view;
    this.bytes = this.view = null;
  }

  // Returns where there is room after what is used already, at a multiple of 8.
  #append(size) {
    const at = Math.ceil(this.used / 8) * 8;
    this.used = at + size;
    if (this.used > this.bytes.length) {
      const larger = new Uint8Array(Math.max(2 * this.bytes.length, this.used));
      larger.set(this.bytes);
      this.bytes.fill(0);
      this.bytes = larger;
      this.view = new DataView(larger.buffer);
    }
    return at;
  }

  #point(at, size, made) {
    if (size !== 0) this.pointers.push(at, made);
  }

  flag(at, is) {
    this.u8(at, is ? 1 : 0);
  }

  u8(at, number) {
    this.bytes[at] = number;
  }

  i32(at, number) {
    this.view.setInt32(at, number, true);
  }

  u32(at, number) {
    this.view.setUint32(at, number, true);
  }

  /** Adds bytes. Returns their offset. */
  add(value) {
    const made = this.#append(value.length);
    this.bytes.set(value, made);
    return made;
  }

  /** Lends bytes through the `passkey_bytes` at this offset. */
  lend(at, value) {
    const made = this.add(value);
    this.#point(at + BYTES.data, value.length, made);
    this.u32(at + BYTES.size, value.length);
  }

  /** Lends a list through the pointer and the count at these offsets. */
  lendList(pointer, count, values) {
    const made = this.#append(values.length * BYTES.sizeOf);
    this.#point(pointer, values.length, made);
    this.u32(count, values.length);
    values.forEach((value, index) => this.lend(made + index * BYTES.sizeOf, value));
  }
}

/** What is in the module's memory from an address on, until the next call. */
export class Room {
  #bytes;
  #view;
  #at;

  constructor(module, at) {
    this.#bytes = module.bytes();
    this.#view = module.view();
    this.#at = at;
  }

  u8(offset) {
    return this.#bytes[this.#at + offset];
  }

  i32(offset) {
    return this.#view.getInt32(this.#at + offset, true);
  }

  u32(offset) {
    return this.#view.getUint32(this.#at + offset, true);
  }

  copy(offset, size) {
    return this.#bytes.slice(this.#at + offset, this.#at + offset + size);
  }
}

/** An instance of the module. Its calls are made in `within`. If they have no owner, its memory is as it was at first when they end;
 *  otherwise after the owner's last calls, which the owner marks with `clean`, and at the latest when calls of another owner begin. */
export class Module {
  #compiled;
  #exports = null;
  #buffer = null;
  #bytes = null;
  #view = null;
  #blocks = [];
  #data = null;
  #whole = 0;
  #stack = 0;
  #heap = 0;
  #heapEnd = 0;
  #owner = null;
  // Whether the last calls, and the work after them, were completed.
  #isWhole = true;

  constructor(compiled) {
    this.#compiled = compiled;
    this.#start();
  }

  // The stack is lowest, then data, then the heap.
  #start() {
    this.#exports = new WebAssembly.Instance(this.#compiled, {}).exports;
    if (this.#exports.passkey_abi_version() !== ABI_VERSION) throw new Error("passkey.wasm has another version than this package");
    this.#whole = Number(this.#exports.__stack_pointer.value);
    this.#heap = Number(this.#exports.__heap_base.value);
    this.#heapEnd = Number(this.#exports.heap_end.value);
    this.#data = this.bytes().slice(this.#whole, this.#heap);
    this.#blocks = [];
    this.#begin(USUAL_STACK);
  }

  // The stack grows down to address 0, and nothing below it can be written: so it may begin anywhere.
  #begin(stack) {
    this.#stack = stack;
    this.#exports.__stack_pointer.value = BigInt(stack);
  }

  #fresh() {
    if (this.#exports === null) this.#start();
    const { buffer } = this.#exports.memory;
    if (buffer === this.#buffer) return;
    this.#buffer = buffer;
    this.#bytes = new Uint8Array(buffer);
    this.#view = new DataView(buffer);
  }

  /** The module's memory as it is now: a different array after each growth. */
  bytes() {
    this.#fresh();
    return this.#bytes;
  }

  view() {
    this.#fresh();
    return this.#view;
  }

  /** Where the memory has room for this many bytes, in which anything of this owner may be. */
  take(size) {
    if (size > MOST_LENT) throw new NoMemory();
    const block = this.#exports.malloc(BigInt(size));
    if (block === 0n) throw new NoMemory();
    this.#blocks.push(block);
    return Number(block);
  }

  /** Where these bytes are in the memory. */
  lend(value) {
    const at = this.take(value.length);
    this.bytes().set(value, at);
    return at;
  }

  /** Where an image is in the memory, with room for this many bytes after it; and where that room begins. */
  place(image, size) {
    const behind = Math.ceil(image.used / 8) * 8, at = this.take(behind + size);
    this.bytes().set(image.bytes.subarray(0, image.used), at);
    const view = this.view();
    for (let index = 0; index < image.pointers.length; index += 2)
      view.setUint32(at + image.pointers[index], at + image.pointers[index + 1], true);
    return [at, at + behind];
  }

  /** A call of `passkey.h`; addresses and sizes are numbers. The module names each call with its version, as
   *  `passkey_assertion_5`. */
  call(name, ...words) {
    return this.#exports[`${name}_${ABI_VERSION}`](...words);
  }

  /** Makes the calls of an owner, if there is one. If the stack does not suffice, they are repeated, from the first, with all of it. */
  within(calls, owner = null) {
    if (!this.#isWhole) this.#letGo();
    if (this.#owner !== owner) this.clean();
    this.#fresh();
    try {
      return this.#made(calls, owner);
    } catch (error) {
      if (!isTrap(error)) throw error;
    }
    this.#fresh();
    this.#begin(this.#whole);
    try {
      return this.#made(calls, null);
    } catch (error) {
      throw isTrap(error) ? new NoMemory() : error;
    } finally {
      if (this.#exports !== null) this.#begin(USUAL_STACK);
    }
  }

  #made(calls, owner) {
    let isDone = false;
    this.#isWhole = false;
    try {
      const told = calls();
      isDone = true;
      return told;
    } finally {
      if (this.bytes().length > MOST_KEPT) this.#letGo();
      else if (!isDone) this.#putBack();
      else if (owner === null) this.#overwrite();
      else this.#owner = owner;
      this.#isWhole = true;
    }
  }

  /** Returns and overwrites all memory that an owner's calls took. */
  clean() {
    if (this.#owner !== null) this.#overwrite();
  }

  #letGo() {
    this.#exports = this.#buffer = this.#bytes = this.#view = this.#owner = null;
    this.#isWhole = true;
  }

  // The calls have returned: the stack and the used part of the heap are overwritten.
  #overwrite() {
    this.#owner = null;
    for (const block of this.#blocks.splice(0)) this.#exports.free(block);
    const bytes = this.bytes(), view = this.view();
    bytes.fill(0, 0, this.#stack);
    bytes.fill(0, this.#heap, view.getUint32(this.#heapEnd, true));
    view.setUint32(this.#heapEnd, 0, true);
  }

  // The calls were cut off: all is reset to the first state.
  #putBack() {
    this.#owner = null;
    this.#blocks = [];
    const bytes = this.bytes();
    bytes.fill(0, 0, this.#whole);
    bytes.set(this.#data, this.#whole);
    bytes.fill(0, this.#heap);
    this.#begin(this.#stack);
  }
}
