/** A call that didn't do what it says. Nothing is changed by it, unless it is a `SessionEnded`, or a
 * `receive` that is out of memory: that keeps what it received, and may have lost bytes of the peer. */
export declare class Refused extends Error {
  /** The reason, in words: "no index", "out of memory", "bad digest", "unknown event" and so on. */
  readonly status: string;
  /** What belongs to the reason, as include/egw.h says. Of "bad text", the place of the half pair in the string. */
  readonly number: number;
}

/** The session with a peer is over: free the peer. What was received by then is held, so take its changes. */
export declare class SessionEnded extends Refused {
  /** What is still to be sent to the peer. */
  readonly reply: Uint8Array;
}

/** So many units from `at` on are replaced by a text. */
export interface Change {
  readonly at: number;
  readonly deleted: number;
  readonly inserted: string;
}

export interface Options {
  /** The name of this copy: 1 to 32 of a-z A-Z 0-9 _ -, not beginning with -. No two copies of a document may use one name. Where none
   * is given it is a new one by chance, so that two tabs never clash. */
  readonly agent?: string;
}

/** Loads the module: egw.wasm beside this file, or what is named. Documents that are made later are of the one that was loaded last. */
export declare function load(
  source?: URL | string | Response | Promise<Response> | ArrayBuffer | Uint8Array | WebAssembly.Module,
): Promise<void>;

/** What came over one connection and is no whole frame yet. */
export declare class Peer {
  constructor();
  /** Gives its memory back. What is forgotten is freed too, at some time. */
  free(): void;
}

/** A text with its whole history. Indices and lengths count units of UTF-16. Between the two units of one character there is no index, and
 * none past the end: a call is refused with "no index" there. */
export declare class Document {
  /** Loads the module where it isn't loaded yet. */
  static open(file?: Uint8Array | ArrayBuffer, options?: Options): Promise<Document>;
  /** Once the module is loaded: a document without events, or that of an event file's bytes. */
  constructor(file?: Uint8Array | ArrayBuffer, options?: Options);

  /** The name under which this copy makes events. */
  readonly agent: string;
  readonly length: number;
  /** How many events are held. */
  readonly count: number;

  /** Inserts a text. Answers how many events were made. */
  insert(at: number, text: string): number;
  /** Deletes so many units. Answers how many events were made. */
  delete(at: number, units?: number): number;
  /** Makes a save under a label, which joins all heads. Answers how many events were made. */
  mark(label: string): number;
  /** Undoes events of one agent, from the one with the id on, as "ada:4". Answers how many events were made; `changes` tells what they
   * do. */
  undo(id: string, count?: number): number;

  /** The text, or that of a version: the words that `heads` answered once. */
  text(version?: string): string;
  slice(from: number, to?: number): string;
  /** The version that the document is at now. */
  heads(): string;
  /** Oldest first. */
  marks(): { id: string; label: string }[];
  /** Words that name a place of the text, for `caretIndex`. */
  caret(at: number): string;
  /** Where a caret is now, whatever came since. */
  caretIndex(caret: string): number;
  /** Who inserted which part: lines with an id, a number of characters, and as many of these as fit. */
  blame(version?: string, columns?: number): string;

  /** The bytes of an event file. */
  save(): Uint8Array;
  /** A question for what this document lacks. Send it to a peer. */
  ask(): Uint8Array;
  /** The events from number `since` on, as the bytes that a peer is sent who lacks them. */
  events(since: number): Uint8Array;
  /** Takes bytes that a peer sent, cut anywhere. Answers what is to be sent back, or throws `SessionEnded`. */
  receive(peer: Peer, bytes: Uint8Array | ArrayBuffer): Uint8Array;
  /** What changed the text since they were asked for last, but for `insert` and `delete` of this copy: carry them out one after another.
   * Take them after each `receive` and `undo`, before the next edit; an edit that comes first is told with them. */
  changes(): Change[];

  /** Gives its memory back. What is forgotten is freed too, at some time. */
  free(): void;
}
