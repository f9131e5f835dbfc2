// The calls of the proved module, and the memory that they share with this file. Nothing here is proved: it puts texts
// into the memory and takes answers out of it. Tests compare what it answers with the vectors.
import { bytes } from './module.mjs';

export const MOST = 65535; // bytes of a text
const SPARE = 16; // bytes behind each text, of anything: the module reads faster if they are there
const ROOM = MOST + SPARE + 1;

/** The name of each number with which a call ends. */
export const CODES = ['Done', 'InvalidLanguage', 'InvalidSubtag', 'InvalidExtension', 'DuplicatedExtension', 'OutOfMemory',
  'BufferTooSmall', 'UnknownNumber', 'NotFound', 'BeyondLimits'];
// The name of each number by which `web_parts` says what a piece is.
const KINDS = ['language', 'script', 'region', 'variant', 'singleton', 'attribute', 'key', 'value', 'field', 'other', 'private'];
const ROW = 3 * 8; // bytes of a row of its table: three numbers
export const DONE = 0;
const NOT_FOUND = 8;
export const BEYOND = 9;
const MODES = { langid: 0, locale: 1, data: 2 };
/** The mode as which a normal text of any mode means the same. */
export const LOCALE = MODES.locale;

const compiled = new WebAssembly.Module(bytes);
const encoder = new TextEncoder();
const decoder = new TextDecoder('utf-8', { ignoreBOM: true });

// The module and its memory, which never grows, so that the views stay good.
let calls, all, numbers;
function begin(instance) {
  calls = instance.exports;
  all = new Uint8Array(calls.memory.buffer);
  numbers = new DataView(calls.memory.buffer);
}
begin(new WebAssembly.Instance(compiled));

/** All of the memory. */
export const memoryOf = () => all;

/**
 * Makes a call. An engine stops one that reaches outside the memory, which no call of this file does; the module then takes no
 * further call, so another one is begun.
 */
export function ask(name, ...words) {
  try {
    return calls[name](...words);
  } catch (error) {
    begin(new WebAssembly.Instance(compiled));
    throw new Error(`the module stopped in ${name}`, { cause: error });
  }
}

// The places of two texts, of the room for a normal text, of numbers, and of two answers. A table of parts takes the place of
// these. It has room for each text: pieces have a byte and a hyphen at least.
const [TEXT, OTHER, PLACE, NUMBER, ONE, TWO] = Array.from({ length: 6 }, (_, at) => Number(calls.__heap_base.value) + at * ROOM);
const MOST_NUMBERS = 3 * Math.ceil((MOST + 1) / 2);
if (ONE + 8 * MOST_NUMBERS > all.length) throw new Error('the memory of the module is too small');
const place = { text: BigInt(TEXT), other: BigInt(OTHER), room: BigInt(PLACE), one: BigInt(ONE), two: BigInt(TWO), number: BigInt(NUMBER),
  more: BigInt(NUMBER + 8) };
const room = BigInt(ROOM), mostNumbers = BigInt(MOST_NUMBERS);

// Numbers of the module are BigInts. Small ones are made once: to make one at each call takes longer.
const few = Array.from({ length: 512 }, (_, at) => BigInt(at));
const big = number => few[number] ?? BigInt(number);

// What no object can misstate: which typed array it is, of any window, and its bytes.
const ofTypedArrays = name => Object.getOwnPropertyDescriptor(Object.getPrototypeOf(Uint8Array.prototype), name).get;
const kindOf = ofTypedArrays(Symbol.toStringTag), lengthOf = ofTypedArrays('length');
const localeText = globalThis.Intl?.Locale?.prototype.toString;

// The text of an `Intl.Locale`, or nothing.
function ofIntl(it) {
  try { return localeText.call(it); } catch { return undefined; }
}

/** The string or the bytes: those given, or the text of a `Locale`, of its copy without a class, or of an `Intl.Locale`. */
export function textOf(it) {
  if (typeof it === 'string') return it;
  if (kindOf.call(it) === 'Uint8Array') {
    if (it.length !== lengthOf.call(it)) throw new TypeError('a Uint8Array of another length than it says');
    return it;
  }
  const found = typeof it === 'object' && it !== null ? typeof it.normal === 'string' ? it.normal : ofIntl(it) : undefined;
  if (found === undefined) throw new TypeError('a text is a string, a Uint8Array or a locale');
  return found;
}

// Puts a text there as UTF-8, and returns how many bytes it has; more than MOST if it is too long.
function put(text, at) {
  if (typeof text === 'string') return putString(text, at);
  const length = lengthOf.call(text);
  if (length <= MOST) all.set(text, at);
  return length;
}

function putString(text, at) {
  const length = text.length;
  if (length > MOST) return MOST + 1;
  for (let i = 0; i < length; i++) {
    const code = text.charCodeAt(i);
    if (code > 127) return putEncoded(text, at);
    all[at + i] = code;
  }
  return length;
}

function putEncoded(text, at) {
  const { read, written } = encoder.encodeInto(text, all.subarray(at, at + MOST));
  return read < text.length ? MOST + 1 : written;
}

/** The text that bytes are. */
export const decoded = bytes => decoder.decode(bytes);

// The text that stands there, which is ASCII.
function take(at, length) {
  if (length > 64) return decoder.decode(all.subarray(at, at + length));
  let text = '';
  for (let i = at; i < at + length; i++) text += String.fromCharCode(all[i]);
  return text;
}

/** The number of a mode. What `map` passes behind a text, a number, is no mode. */
export function modeOf(mode) {
  if (typeof mode === 'number') return LOCALE;
  const number = Object.hasOwn(MODES, mode) ? MODES[mode] : undefined;
  if (number === undefined) throw new TypeError(`no mode ${String(mode)}: a mode is 'langid', 'locale' or 'data'`);
  return number;
}

/** Normalizes: the number with which the call ends. What it wrote is then `written()`. */
export function normalizeInto(text, mode) {
  const length = put(text, TEXT);
  if (length > MOST) return BEYOND;
  return ask('web_normalize', mode, place.text, big(length + SPARE), big(length), place.room, room, place.one, room, place.number);
}

/** The text that the last call wrote. */
export function written() {
  return take(ONE, numbers.getUint32(NUMBER, true)); // (its length is less than 2 ^ 32, and the order of bytes is the module's)
}

/** Checks: the number with which the call ends. */
export function checked(text, mode) {
  const length = put(text, TEXT);
  if (length > MOST) return BEYOND;
  return ask('web_check', mode, place.text, big(length + SPARE), big(length));
}

/** Finds the parts of a text: the number with which the call ends, and its normal text and pieces, each with its place and kind. */
export function partsOf(text, mode) {
  const length = put(text, TEXT);
  if (length > MOST) return { status: BEYOND, normal: '', pieces: [] };
  const status = ask('web_parts', mode, place.text, big(length + SPARE), big(length), place.room, room, place.number, place.one, mostNumbers, place.more);
  const normal = take(PLACE, numbers.getUint32(NUMBER, true)), pieces = [];
  const end = status === DONE ? ONE + 8 * numbers.getUint32(NUMBER + 8, true) : ONE;
  for (let at = ONE; at < end; at += ROW) pieces.push(pieceAt(at, normal));
  return { status, normal, pieces };
}

// The piece of which a row of the table says where it stands and what it is.
function pieceAt(at, normal) {
  const [start, end, kind] = [0, 8, 16].map(more => numbers.getUint32(at + more, true));
  return { text: normal.slice(start, end), start, end, kind: KINDS[kind] };
}

/** Finds the fault of a text: the number with which the call ends, and the first and the last byte of the place. */
export function faultOf(text, mode) {
  const length = put(text, TEXT);
  if (length > MOST) return { status: BEYOND, start: 0, end: 0 };
  const status = ask('web_find_fault', mode, place.text, big(length + SPARE), big(length), place.number, place.more);
  return { status, start: numbers.getUint32(NUMBER, true), end: numbers.getUint32(NUMBER + 8, true) };
}

/** The kinds of pieces that may stand at a place of a text, which counts bytes: a bit of each. */
export function kindsAt(text, mode, start) {
  const length = put(text, TEXT);
  if (length > MOST) return 0;
  ask('web_expected', mode, place.text, big(length + SPARE), big(length), big(start), place.number);
  return numbers.getUint16(NUMBER, true);
}

/** The words of a set of kinds: `a script or a region`. */
export function wordsOfKinds(kinds) {
  ask('web_kinds', kinds, place.one, room, place.number);
  return written();
}

/** What to do about a refused text such as `en_US`, in words; nothing if it looks like no other. */
export function hintOf(text, mode) {
  const length = put(text, TEXT);
  if (length > MOST) return undefined;
  const status = ask('web_hint', mode, place.text, big(length + SPARE), big(length), place.one, room, place.number);
  return status === DONE ? written() : undefined;
}

/** Asks a call for a part of what a text means: the call's end, and the part; nothing where it is not there. */
export function partBy(call, text, mode) {
  const length = put(text, TEXT);
  if (length > MOST) return [BEYOND, undefined];
  return told(ask(call, mode, place.text, big(length + SPARE), big(length), place.room, room, place.one, room, place.number));
}

/** The same for the value of a keyword. (Of a long key, which is none, all that there is room for.) */
export function keywordBy(text, mode, key) {
  const length = put(text, TEXT), end = Math.min(put(key, OTHER), MOST);
  if (length > MOST) return [BEYOND, undefined];
  return told(ask('web_keyword_of', mode, place.text, big(length + SPARE), big(length), place.other, big(end), place.room, room, place.one, room,
    place.number));
}

// How a call for a part ended, and the part that it told.
function told(status) {
  if (status === NOT_FOUND) return [DONE, undefined];
  return [status, status === DONE ? written() : undefined];
}

/** What cleaning leaves of a line, as bytes that the next call writes over; nothing if it is too long. */
export function cleanedBytes(text) {
  const length = put(text, TEXT);
  if (length > MOST) return undefined;
  ask('web_clean', place.text, big(length + SPARE), big(length), place.room, room, place.one, room, place.number);
  return all.subarray(ONE, ONE + numbers.getUint32(NUMBER, true));
}

// Asks a call about two texts: its end, and the number that it wrote.
function askBoth(name, text, other, ...mode) {
  const length = put(text, TEXT), second = put(other, OTHER);
  if (length > MOST || second > MOST) return [BEYOND, 0];
  const status = ask(name, ...mode, place.text, big(length + SPARE), big(length), place.other, big(second + SPARE), big(second),
    place.one, room, place.two, room, place.number);
  return [status, numbers.getInt8(NUMBER)];
}

/** Compares: the call's end, and the order. */
export function ordered(text, other, mode) {
  return askBoth('web_compare', text, other, mode);
}

/** Whether both mean the same: the call's end, and 1 or 0. */
export function sameness(text, other, mode) {
  return askBoth('web_normalizing_eq', text, other, mode);
}

/** Whether a range stands for a locale: the call's end, and 1 or 0. */
export function matched(text, range) {
  return askBoth('web_matches', text, range);
}

function wordsOfNumber(number) {
  if (number === BEYOND) return 'Beyond the limits';
  ask('web_words', number, place.one, room, place.number);
  return written();
}

/** The words of each number. */
export const WORDS = CODES.map((_, number) => wordsOfNumber(number));

/** The words of each kind of piece, at the place of its bit. The last one is the end of the text. */
export const KIND_WORDS = Array.from({ length: 13 }, (_, at) => wordsOfKinds(1 << at));

/** The version of the module's calls. */
export const version = ask('web_version');
