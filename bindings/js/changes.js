// Changes of a text: from one for each event, with indices in characters, to runs, with indices in units of UTF-16.

const [NOTHING, INSERTION] = [0, 1];

/** Where the characters of two units stand in a text. Around the place of the last change lies a gap, since the next one is often near:
 * places before it are kept as they are, those behind it less a shift that all of them share. */
export class WidePlaces {
  #front = [];
  #back = []; // the first is the last place
  #shift = 0;

  static of(text) {
    const places = new WidePlaces();
    let index = 0;
    for (let unit = 0; unit < text.length; unit++, index++) {
      if (text.codePointAt(unit) > 0xffff) {
        places.#front.push(index);
        unit++;
      }
    }
    return places;
  }

  get none() {
    return this.#front.length === 0 && this.#back.length === 0;
  }

  #moveTo(index) {
    const [front, back] = [this.#front, this.#back];
    while (front.length > 0 && front[front.length - 1] >= index) back.push(front.pop() - this.#shift);
    while (back.length > 0 && back[back.length - 1] + this.#shift < index) front.push(back.pop() + this.#shift);
  }

  /** How many units stand before an index. */
  unitsBefore(index) {
    this.#moveTo(index);
    return index + this.#front.length;
  }

  insert(index, codePoint) {
    this.#moveTo(index);
    if (codePoint > 0xffff) this.#front.push(index);
    this.#shift++;
  }

  insertText(index, text) {
    for (const character of text) this.insert(index++, character.codePointAt(0));
  }

  /** Takes a character out, and tells its units. */
  remove(index) {
    this.#moveTo(index);
    const back = this.#back;
    const isWide = back.length > 0 && back[back.length - 1] + this.#shift === index;
    if (isWide) back.pop();
    this.#shift--;
    return isWide ? 2 : 1;
  }
}

/** A change while others are joined to it: so many units from `at` on are replaced by these characters. */
class Run {
  deleted = 0;
  #characters = [];
  #units = 0;

  constructor(at) {
    this.at = at;
  }

  /** Whether the run could take the insertion in. */
  inserts(at, character) {
    if (at !== this.at + this.#units) return false;
    this.#characters.push(character);
    this.#units += character.length;
    return true;
  }

  deletes(at, units) {
    const end = this.at + this.#units;
    if (at === end) {
      this.deleted += units;
    } else if (at + units === this.at) {
      this.at = at;
      this.deleted += units;
    } else if (at + units === end && this.#units > 0) {
      this.#characters.pop();
      this.#units -= units;
    } else {
      return false;
    }
    return true;
  }

  told() {
    return { at: this.at, deleted: this.deleted, inserted: this.#characters.join("") };
  }
}

/** The changes of a list of words, three for each: what it does, its index, and its character. `places` are those of the text before,
 * and become those of the text behind. */
export function joined(words, places) {
  const runs = [];
  let run = null;
  for (let i = 0; i < words.length; i += 3) {
    const kind = words[i], index = words[i + 1];
    if (kind === NOTHING) continue;
    const at = places.unitsBefore(index);
    if (kind === INSERTION) {
      const codePoint = words[i + 2], character = String.fromCodePoint(codePoint);
      places.insert(index, codePoint);
      if (run?.inserts(at, character)) continue;
      runs.push((run = new Run(at)));
      run.inserts(at, character);
    } else {
      const units = places.remove(index);
      if (run?.deletes(at, units)) continue;
      runs.push((run = new Run(at)));
      run.deletes(at, units);
    }
  }
  return runs.map((each) => each.told()).filter(({ deleted, inserted }) => deleted > 0 || inserted !== "");
}
