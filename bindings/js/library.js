// The module egw.wasm: how it is loaded, called and told of texts and bytes.

/** How a call ends, by its number in include/egw.h. */
const STATUSES = [
  "ok", "out of memory", "out of range", "too many heads", "full", "awaited", "empty name", "long name", "bad name", "bad text",
  "no version", "unknown event", "short file", "no event file", "unknown file version", "bad digest", "bad field",
  "too many events", "bad event", "long frame", "no kind of frame", "bad frame", "clash", "bye", "no id", "closed", "no caret",
  "no character", "empty label", "long label", "bad label", "no index",
];
const [OK, OUT_OF_MEMORY, BAD_TEXT, LONG_FRAME, BYE, CLOSED] = [0, 1, 9, 19, 23, 25];

export class Refused extends Error {
  constructor(status, number = 0) {
    const reason = STATUSES[status] ?? String(status);
    super(number ? `${reason} (${number})` : reason);
    this.name = new.target.name;
    this.status = reason;
    this.number = number;
  }
}

export class SessionEnded extends Refused {
  constructor(status, number, reply) {
    super(status, number);
    this.reply = reply;
  }

  static isTold(status) {
    return status >= LONG_FRAME && status <= BYE;
  }
}

const CHANGE_BYTES = 12;
const encoder = new TextEncoder();
const decoder = new TextDecoder("utf-8", { ignoreBOM: true, fatal: true });

/** Where half a pair of units stands without its other half, or -1: UTF-8 has no bytes for it. */
function halfPair(text) {
  if (text.isWellFormed?.()) return -1;
  return text.search(/[\ud800-\udbff](?![\udc00-\udfff])|(?<![\ud800-\udbff])[\udc00-\udfff]/);
}

function asOctets(bytes) {
  if (ArrayBuffer.isView(bytes)) return new Uint8Array(bytes.buffer, bytes.byteOffset, bytes.byteLength);
  if (bytes instanceof ArrayBuffer) return new Uint8Array(bytes);
  throw new TypeError("bytes are a Uint8Array or an ArrayBuffer");
}

/** What stands in the module's memory for a document or a peer, followed by a name. */
class Handle {
  #at;
  #free;

  constructor(library, free, name) {
    this.library = library;
    this.nameLength = name.length;
    this.#free = free;
    this.#at = library.take(16 + name.length);
    library.memory.fill(0, this.#at, this.#at + 16);
    library.memory.set(name, this.#at + 16);
  }

  get at() {
    if (this.#at === 0) throw new Refused(CLOSED);
    return this.#at;
  }

  free() {
    if (this.#at === 0) return;
    const at = this.#at;
    this.#at = 0;
    this.library.calls[this.#free](at);
    this.library.calls.release(at);
  }
}

export class Library {
  #view = new Uint8Array();
  #room = 0;
  /** Where the room for what is passed to calls, and what they answer, begins. */
  at = 0;

  constructor(instance) {
    this.calls = instance.exports;
    this.needRoom(4096);
  }

  /** The module's memory: another view of it after it has grown. */
  get memory() {
    const { buffer } = this.calls.memory;
    return this.#view.buffer === buffer ? this.#view : (this.#view = new Uint8Array(buffer));
  }

  take(size) {
    const at = this.calls.alloc(size) >>> 0;
    if (at === 0) throw new Refused(OUT_OF_MEMORY);
    return at;
  }

  needRoom(size) {
    if (size <= this.#room) return;
    const room = Math.max(size, 2 * this.#room), at = this.take(room);
    this.calls.release(this.at);
    this.at = at;
    this.#room = room;
  }

  handle(free, name = "") {
    return new Handle(this, free, encoder.encode(name));
  }

  /** Puts bytes into the room, and answers how many they are. */
  putBytes(bytes) {
    const octets = bytes instanceof Uint8Array ? bytes : asOctets(bytes);
    this.needRoom(octets.length);
    this.memory.set(octets, this.at);
    return octets.length;
  }

  putText(text) {
    if (text.length === 1 && text.charCodeAt(0) < 0x80) {
      this.memory[this.at] = text.charCodeAt(0);
      return 1;
    }
    const half = halfPair(text);
    if (half >= 0) throw new Refused(BAD_TEXT, half);
    const most = 3 * text.length;
    this.needRoom(most);
    return encoder.encodeInto(text, this.memory.subarray(this.at, this.at + most)).written;
  }

  /** What a call that answered a status told with it. */
  told(status) {
    if (status !== OK) throw new Refused(status, this.calls.number());
    return this.calls.number();
  }

  /** The bytes that a document found, where they are: the next call may change them. */
  #found(document, count) {
    this.needRoom(count);
    this.calls.copy(document, this.at, count);
    return this.memory.subarray(this.at, this.at + count);
  }

  bytes(document, count) {
    return count === 0 ? new Uint8Array() : this.#found(document, count).slice();
  }

  text(document, count) {
    return decoder.decode(this.#found(document, count));
  }

  /** What a session answered with its status. */
  reply(document, status) {
    if (!SessionEnded.isTold(status)) return this.bytes(document, this.told(status));
    const { number, copy } = this.calls, why = number();
    throw new SessionEnded(status, why, this.bytes(document, copy(document, this.at, 0)));
  }

  /** Three words for each change: what it does, its index, and its character. */
  changes(document, count) {
    this.needRoom(CHANGE_BYTES * count);
    this.calls.copy_changes(document, this.at, count);
    return new Uint32Array(this.calls.memory.buffer, this.at, 3 * count);
  }
}

async function compiled(source) {
  const from = await source;
  if (from instanceof WebAssembly.Module) return from;
  if (from instanceof URL && from.protocol === "file:") {
    const { readFile } = await import(/* webpackIgnore: true */ /* @vite-ignore */ "node:fs/promises");
    return WebAssembly.compile(await readFile(from));
  }
  const answer = typeof from === "string" || from instanceof URL ? await fetch(from) : from;
  if (typeof Response === "undefined" || !(answer instanceof Response)) return WebAssembly.compile(answer);
  if (!answer.ok) throw new Error(`${answer.url} isn't there: ${answer.status}`);
  // A server that doesn't know modules calls them something else.
  const isNamed = /^application\/wasm\b/.test(answer.headers.get("content-type") ?? "");
  return isNamed ? WebAssembly.compileStreaming(answer) : WebAssembly.compile(await answer.arrayBuffer());
}

let library = null;
let loading = null;

export function loaded() {
  if (!library) throw new Error("egw.wasm isn't loaded yet: await load() or Document.open()");
  return library;
}

export function load(source) {
  if (source === undefined && loading) return loading;
  const made = compiled(source ?? new URL("./egw.wasm", import.meta.url)).then(async (module) => {
    library = new Library(await WebAssembly.instantiate(module));
  });
  loading = made;
  made.catch(() => {
    if (loading === made) loading = null;
  });
  return made;
}
