// The error of a refused text.
import { CODES, WORDS, modeOf } from './calls.mjs';
import { Refusal, shownPiece } from './faults.mjs';

// Has errors keep so many frames. (Engines other than V8 and WebKit's have no such number, and where `Error` is frozen it stays.)
function keepFrames(count) {
  try { Error.stackTraceLimit = count; } catch { /* (it is frozen) */ }
}

// (a part is read alone: all of it is at fault, and nothing is looked for in it)
function whyOf(code, text, mode, part) {
  if (part === undefined) return new Refusal(code, text, modeOf(mode));
  const { length } = text, message = `${part}: ${WORDS[CODES.indexOf(code)]}: ${shownPiece(text, 0, length)}`;
  return { start: 0, end: length, expected: [], hint: undefined, message };
}

/**
 * A text that has no normal text, or is beyond the limits; or a part that is none. Its message says which piece is at fault,
 * where it stands, and what may stand there. Message, place, `expected` and `hint` are looked for when they are first asked for.
 */
export class LocaleError extends RangeError {
  /** How many frames of the stack an error keeps where the engine asks this, as V8 does: to find them takes five times as long as all else. With none it has no `stack` there. */
  static stackTraceLimit = 0;

  #refusal;
  constructor(code, text, mode, part) {
    const before = Error.stackTraceLimit, frames = LocaleError.stackTraceLimit;
    // (where the limit is no number, V8 does not walk the stack, and the error has no `stack`; to keep no frame it does)
    if (before !== undefined) keepFrames(frames > 0 ? frames : undefined);
    super(frames > 0 ? whyOf(code, text, mode, part).message : undefined); // (frames stand behind the message)
    if (before !== undefined) keepFrames(before);
    this.code = code;
    this.text = text;
    this.mode = mode;
    if (part !== undefined) this.part = part;
  }

  get #why() {
    return this.#refusal ??= whyOf(this.code, this.text, this.mode, this.part);
  }

  get start() {
    return this.#why.start;
  }

  get end() {
    return this.#why.end;
  }

  /** What may stand at the place, in words; nothing of a part, or beyond the limits. */
  get expected() {
    return this.#why.expected;
  }

  /** What to do about a text such as `en_US`, in words; undefined if it looks like no other. */
  get hint() {
    return this.#why.hint;
  }

  /** (It can be set, as that of any error. The prototype is no error of a text.) */
  get message() {
    if (!(#refusal in this)) return '';
    const { message } = this.#why;
    if (Object.isExtensible(this)) this.message = message;
    return message;
  }

  set message(value) {
    Object.defineProperty(this, 'message', { value, writable: true, configurable: true });
  }

  /** What a structured clone of an error loses: its code, text, mode, place, and what may stand there. */
  toJSON() {
    const { name, message, code, text, mode, part, start, end, expected, hint } = this;
    return { name, message, code, text: typeof text === 'string' ? text : Array.from(text), mode, part, start, end, expected, hint };
  }
}
Object.defineProperty(LocaleError.prototype, 'name', { value: 'LocaleError', configurable: true, writable: true });
