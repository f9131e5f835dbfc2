// Why a text is refused: where its fault stands, what may stand there, and what is usually meant. The module's proved calls say it;
// not proved are the way from its bytes to the units of a string, and how a message is joined.
import { BEYOND, CODES, DONE, KIND_WORDS, WORDS, decoded, faultOf, hintOf, kindsAt, modeOf, textOf, wordsOfKinds } from './calls.mjs';

const MOST_SHOWN = 64; // units, or bytes, of a piece in a message
const NOWHERE = Object.freeze({});

// How many units of the string its first bytes are. A place is the end of a piece, so it is no place within a character.
function unitsOf(text, bytes) {
  let units = 0;
  for (let at = 0; at < bytes; units++) {
    const code = text.charCodeAt(units), isPair = code >= 0xd800 && code < 0xdc00 && (text.charCodeAt(units + 1) & 0xfc00) === 0xdc00;
    at += code < 0x80 ? 1 : code < 0x800 ? 2 : isPair ? 4 : 3;
    if (isPair) units++;
  }
  return units;
}

// The place of a fault, of which the module says the bytes. `byte` is the first of them.
function placeOf(text, { start, end }) {
  return typeof text === 'string' ? { start: unitsOf(text, start), end: unitsOf(text, end), byte: start } : { start, end, byte: start };
}

/** A piece of a text as a message shows it, in quotes: its beginning, if it is long. */
export function shownPiece(text, start, end) {
  const shown = text.slice(start, Math.min(end, start + MOST_SHOWN)), more = end - start > MOST_SHOWN ? '...' : '';
  return `'${JSON.stringify(typeof shown === 'string' ? shown : decoded(shown)).slice(1, -1)}'${more}`;
}

/**
 * Why a text is refused. All but its code is looked for when it is first asked for. The place is that of the first piece that no
 * accepted text has right after those before it, in units of the string, or in bytes. Pieces count whole: that of `en-foo` is
 * `foo`, though `en-foobar` is accepted. It is the end of the text if more is wanted there, and undefined beyond the limits.
 */
export class Refusal {
  #text;
  #mode;
  #place;
  #kinds;
  #hint;
  constructor(code, text, mode, place) {
    this.code = code;
    this.#text = text;
    this.#mode = mode;
    this.#place = place;
  }

  get #found() {
    if (this.#place !== undefined) return this.#place;
    const { status, ...found } = this.code === CODES[BEYOND] ? { status: BEYOND } : faultOf(this.#text, this.#mode);
    return this.#place = status === DONE || status === BEYOND ? NOWHERE : placeOf(this.#text, found);
  }

  get #bits() {
    const { byte } = this.#found;
    return this.#kinds ??= byte === undefined ? 0 : kindsAt(this.#text, this.#mode, byte);
  }

  get start() {
    return this.#found.start;
  }

  get end() {
    return this.#found.end;
  }

  /** What may stand at the place, in words: `['a script', 'a region', 'a variant', 'an extension', 'the end']`. */
  get expected() {
    return KIND_WORDS.filter((_, at) => this.#bits >> at & 1);
  }

  /** What to do about a text such as `en_US`, in words; undefined if it looks like no other. */
  get hint() {
    if (this.#hint === undefined) this.#hint = this.start === undefined ? null : hintOf(this.#text, this.#mode) ?? null;
    return this.#hint ?? undefined;
  }

  /** `Invalid subtag: 'foo' at 3..6: a script, a region, a variant or an extension may stand here` */
  get message() {
    const words = WORDS[CODES.indexOf(this.code)], { start, end, hint } = this;
    if (start === undefined) return words;
    const may = `${wordsOfKinds(this.#bits)} may stand here`;
    return `${words}: ${shownPiece(this.#text, start, end)} at ${start}..${end}: ${may}${hint === undefined ? '' : `; ${hint}`}`;
  }

  toJSON() {
    const { code, message, start, end, expected, hint } = this;
    return { code, message, start, end, expected, hint };
  }
}

/** Why the text is refused; `null` if it is accepted, or beyond the limits. */
export function findFault(given, mode = 'locale') {
  const text = textOf(given), number = modeOf(mode);
  const { status, ...found } = faultOf(text, number);
  return status === DONE || status === BEYOND ? null : new Refusal(CODES[status], text, number, placeOf(text, found));
}
