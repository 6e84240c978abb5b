// Collaborative plain text: documents that several people change apart, and that show the same text once they hold the same events.
//
//     import { Document } from "egw";
//     const tea = await Document.open();
//     tea.insert(0, "tea");
//
// Indices and lengths count units of UTF-16, as strings of JavaScript do. egw.d.ts says what each call does.

import { WidePlaces, joined } from "./changes.js";
import { Refused, SessionEnded, load, loaded } from "./library.js";

export { Refused, SessionEnded, load };

/** What is no longer reached gives its memory back. */
const unreached = new FinalizationRegistry((handle) => {
  try {
    handle.free();
  } catch {
    // A trap stopped the module: nothing of it is used again.
  }
});

function word(number) {
  if (!Number.isInteger(number) || number < 0 || number > 0xffffffff) throw new RangeError(`${number} is no number of 32 bits`);
  return number;
}

/** A name that no other copy has: 100 bits by chance. */
function randomName() {
  const letters = "abcdefghijklmnopqrstuvwxyz234567";
  return Array.from(crypto.getRandomValues(new Uint8Array(20)), (byte) => letters[byte & 31]).join("");
}

export class Peer {
  #handle;

  constructor() {
    const library = loaded();
    const handle = library.handle("peer_free");
    library.told(library.calls.peer_new(handle.at));
    this.#handle = handle;
    unreached.register(this, handle, handle);
  }

  free() {
    unreached.unregister(this.#handle);
    this.#handle.free();
  }

  /** @internal Where the peer stands in the memory of a module. */
  static _at(peer, library) {
    if (peer.#handle.library !== library) throw new TypeError("the peer was made before another module was loaded");
    return peer.#handle.at;
  }
}

export class Document {
  #handle;
  #library;
  #calls;
  /** How many events are in the text that the caller shows, and where this has characters of two units. */
  #shown;
  #places;
  /** Whether events may have come that the caller wasn't told of. */
  #behind = false;

  static async open(file, options) {
    await load();
    return new Document(file, options);
  }

  constructor(file, { agent = randomName() } = {}) {
    const library = loaded(), { calls } = library, handle = library.handle("free", agent);
    this.agent = agent;
    [this.#handle, this.#library, this.#calls] = [handle, library, calls];
    try {
      if (file === undefined) library.told(calls.new(handle.at));
      else library.told(calls.open(handle.at, ...this.#put(file)));
      this.#shown = this.count;
      this.#places = this.length === calls.characters(handle.at) ? new WidePlaces() : WidePlaces.of(this.text());
    } catch (fault) {
      handle.free();
      throw fault;
    }
    unreached.register(this, handle, handle);
  }

  free() {
    unreached.unregister(this.#handle);
    this.#handle.free();
  }

  #put(bytes) {
    const count = this.#library.putBytes(bytes);
    return [this.#library.at, count];
  }

  /** The words of a call that is handed a text: calls look at the room only once the text is there. */
  #words(text) {
    const count = this.#library.putText(text);
    return [this.#library.at, count];
  }

  #text(status) {
    return this.#library.text(this.#handle.at, this.#library.told(status));
  }

  #bytes(status) {
    return this.#library.bytes(this.#handle.at, this.#library.told(status));
  }

  get length() {
    return this.#library.told(this.#calls.length(this.#handle.at));
  }

  get count() {
    return this.#calls.count(this.#handle.at) >>> 0;
  }

  insert(at, text) {
    const document = this.#handle.at, length = this.#library.putText(text);
    const made = this.#library.told(this.#calls.insert(document, this.#handle.nameLength, word(at), this.#library.at, length));
    if (!this.#behind) {
      this.#shown += made;
      if (made !== text.length || !this.#places.none) this.#places.insertText(this.#calls.place() >>> 0, text);
    }
    return made;
  }

  delete(at, units = 1) {
    const made = this.#library.told(this.#calls.delete(this.#handle.at, this.#handle.nameLength, word(at), word(units)));
    if (!this.#behind) {
      this.#shown += made;
      const place = this.#calls.place() >>> 0;
      for (let i = 0; i < made && !this.#places.none; i++) this.#places.remove(place);
    }
    return made;
  }

  mark(label) {
    const made = this.#library.told(this.#calls.mark(this.#handle.at, this.#handle.nameLength, ...this.#words(label)));
    if (!this.#behind) this.#shown += made;
    return made;
  }

  undo(id, count = 1) {
    const words = this.#words(id);
    this.#behind = true;
    return this.#library.told(this.#calls.undo(this.#handle.at, this.#handle.nameLength, ...words, word(count)));
  }

  text(version) {
    if (version === undefined) return this.#text(this.#calls.text(this.#handle.at));
    return this.#text(this.#calls.text_at(this.#handle.at, ...this.#words(version)));
  }

  slice(from, to = this.length) {
    return this.#text(this.#calls.range(this.#handle.at, word(from), word(to - from)));
  }

  heads() {
    return this.#text(this.#calls.heads(this.#handle.at));
  }

  marks() {
    const lines = this.#text(this.#calls.marks(this.#handle.at)).split("\n").slice(0, -1);
    return lines.map((line) => line.split(" ")).map(([id, label]) => ({ id, label }));
  }

  caret(at) {
    return this.#text(this.#calls.caret(this.#handle.at, word(at)));
  }

  caretIndex(caret) {
    return this.#library.told(this.#calls.caret_index(this.#handle.at, ...this.#words(caret)));
  }

  blame(version = "", columns = 80) {
    return this.#text(this.#calls.blame(this.#handle.at, ...this.#words(version), word(columns)));
  }

  save() {
    return this.#bytes(this.#calls.save(this.#handle.at));
  }

  ask() {
    return this.#bytes(this.#calls.ask(this.#handle.at));
  }

  events(since) {
    return this.#bytes(this.#calls.events(this.#handle.at, word(since)));
  }

  receive(peer, bytes) {
    const document = this.#handle.at, words = this.#put(bytes);
    this.#behind = true;
    return this.#library.reply(document, this.#calls.receive(document, Peer._at(peer, this.#library), ...words));
  }

  changes() {
    const document = this.#handle.at, count = this.#library.told(this.#calls.changes(document, this.#shown));
    const runs = joined(this.#library.changes(document, count), this.#places);
    this.#shown += count;
    this.#behind = false;
    return runs;
  }
}

// Where the language has `using`, it frees them too.
if (Symbol.dispose) {
  for (const { prototype } of [Document, Peer]) {
    Object.defineProperty(prototype, Symbol.dispose, { value: prototype.free });
  }
}
