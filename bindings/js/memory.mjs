// The memory of one WebAssembly module: buffers for one call at a time, one after the other from the module's heap base on.

/**
 * A whole number as the 64-bit integer that a call takes.
 * @param {number} n
 * @returns {bigint}
 */
export function wide(n) {
  if (!Number.isSafeInteger(n) || n < 0) throw new RangeError(`${n} is not a whole number from 0 on`);
  return BigInt(n);
}

const aligned = (/** @type {number} */ n) => (n + 15) & ~15;

export class Memory {
  /**
   * @param {Uint8Array | ArrayBuffer} bytes a module
   * @returns {Promise<Memory>}
   */
  static async load(bytes) {
    const { instance } = await WebAssembly.instantiate(bytes, {});
    return new Memory(instance.exports);
  }

  /** @param {any} calls the module's exports */
  constructor(calls) {
    this.calls = calls;
    this.base = aligned(calls.__heap_base.value);
    this.next = this.base;
  }

  /** Gives back the room of earlier calls. */
  clear() {
    this.next = this.base;
    return this;
  }

  /**
   * Room for so many bytes, whatever they hold.
   * @param {number} length
   * @returns {number} its address
   */
  room(length) {
    const at = this.next;
    this.next = aligned(at + length + 1);
    const missing = this.next - this.calls.memory.buffer.byteLength;
    if (missing > 0) this.calls.memory.grow(Math.ceil(missing / 65536));
    return at;
  }

  /**
   * A copy of the bytes in the module's memory.
   * @param {Uint8Array} bytes
   * @returns {number} its address
   */
  lend(bytes) {
    const at = this.room(bytes.length);
    new Uint8Array(this.calls.memory.buffer).set(bytes, at);
    return at;
  }

  /**
   * The bytes there, copied out.
   * @param {number} at
   * @param {number} length
   * @returns {Uint8Array}
   */
  copy(at, length) {
    return new Uint8Array(this.calls.memory.buffer).slice(at, at + length);
  }

  /**
   * The bytes there, as they stand.
   * @param {number} at
   * @param {number} length
   * @returns {Uint8Array}
   */
  view(at, length) {
    return new Uint8Array(this.calls.memory.buffer, at, length);
  }

  /**
   * @param {number} at
   * @returns {number}
   */
  byte(at) {
    return new Uint8Array(this.calls.memory.buffer)[at];
  }

  /**
   * A number of 64 bits that a call left there.
   * @param {number} at
   * @returns {number}
   */
  word(at) {
    return Number(new DataView(this.calls.memory.buffer).getBigUint64(at, true));
  }
}
