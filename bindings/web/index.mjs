// Unicode locale identifiers by a proved WebAssembly module. What is not proved: the scripts beside the module, and the way
// from the proof to the engine that runs the module. Tests compare all of it with the vectors.
import { BEYOND, CODES, DONE, LOCALE, WORDS, checked, cleanedBytes, decoded, keywordBy, matched, modeOf, normalizeInto, ordered, partBy, partsOf, sameness, textOf, version, written } from './calls.mjs';
import { changedText, changesAny } from './changes.mjs';
import { LocaleError } from './errors.mjs';
import { Refusal, findFault } from './faults.mjs';
import { partsBy } from './parts.mjs';
import { isNarrow, size } from './module.mjs';

export { LocaleError, findFault, isNarrow, size, version };

// The name of a mode as errors have it: what is no name stands for `locale` (see modeOf).
const named = mode => typeof mode === 'number' ? 'locale' : mode;
const refusal = (status, text, mode) => new LocaleError(CODES[status], text, named(mode));

/** The normal text of what the text means. */
export function normalize(given, mode = 'locale') {
  const text = textOf(given), status = normalizeInto(text, modeOf(mode));
  if (status !== DONE) throw refusal(status, text, mode);
  return written();
}

/** The normal text of what the text means, or why there is none. */
export function tryNormalize(given, mode = 'locale') {
  const text = textOf(given), number = modeOf(mode), status = normalizeInto(text, number);
  return status === DONE ? { normal: written() } : new Refusal(CODES[status], text, number);
}

/** `Done` if the text means something, or why not. */
export function check(text, mode = 'locale') {
  return CODES[checked(textOf(text), modeOf(mode))];
}

// Asks about two texts. An error is about the first text that has one.
function both(ask, one, two, mode = 'locale') {
  const number = modeOf(mode), text = textOf(one), other = textOf(two);
  const [status, answer] = ask(text, other, number);
  if (status !== DONE) throw refusal(status, checked(text, number) === status ? text : other, mode);
  return answer;
}

/** The byte order of the normal texts of both: -1, 0 or 1. */
export function compare(text, other, mode = 'locale') {
  return both(ordered, text, other, mode);
}

/** Whether both texts mean the same. */
export function normalizingEq(text, other, mode = 'locale') {
  return both(sameness, text, other, mode) === 1;
}

/** Whether a range stands for the locale that the text means: the extended filtering of RFC 4647, with `und` for its wildcard. */
export function matches(text, range) {
  return both(matched, text, range) === 1;
}

/** What the name of a locale, as files and systems write it, is in the form of UTS #35. Nothing is normalized or refused. */
export function clean(given) {
  const text = textOf(given), left = cleanedBytes(text);
  if (left === undefined) throw refusal(BEYOND, text, 'locale');
  return typeof text === 'string' ? decoded(left) : left.slice();
}

// A part of what a text means, which the module tells by that call.
function partOf(call, given, mode) {
  const text = textOf(given), [status, part] = partBy(call, text, modeOf(mode));
  if (status !== DONE) throw refusal(status, text, mode);
  return part;
}

/** Language, script, region and variants of what the text means. */
export function baseNameOf(text, mode = 'locale') {
  return partOf('web_base_name_of', text, mode);
}

/** The language of what the text means. */
export function languageOf(text, mode = 'locale') {
  return partOf('web_language_of', text, mode);
}

/** The script of what the text means, if there is one. */
export function scriptOf(text, mode = 'locale') {
  return partOf('web_script_of', text, mode) || undefined;
}

/** The region of what the text means, if there is one. */
export function regionOf(text, mode = 'locale') {
  return partOf('web_region_of', text, mode) || undefined;
}

/** The variants of what the text means, with hyphens between them, if there are some. */
export function variantsOf(text, mode = 'locale') {
  return partOf('web_variants_of', text, mode) || undefined;
}

/** The value of a keyword by its key, in any case; empty where the key stands alone, undefined where it is not there. */
export function keywordOf(text, key, mode = 'locale') {
  const given = textOf(text), [status, value] = keywordBy(given, modeOf(mode), textOf(key));
  if (status !== DONE) throw refusal(status, given, mode);
  return value;
}

/** The text without its extensions; without those, without its last variant, region, script or language. `und` has none: null. */
export function parent(text, mode = 'locale') {
  return partOf('web_parent', text, mode) ?? null;
}

/** The parts of what the text means. */
export function parts(given, mode = 'locale') {
  const text = textOf(given), { status, normal, pieces } = partsOf(text, modeOf(mode));
  if (status !== DONE) throw refusal(status, text, mode);
  return partsBy(normal, pieces);
}

/** The parts of a normal text of any mode: as a locale it means the same. */
export function partsOfNormal(normal) {
  return parts(normal);
}

/** The words of a code. */
export function wordsOf(code) {
  return WORDS[CODES.indexOf(code)];
}

function frozen(it) {
  if (typeof it === 'object' && it !== null && !Object.isFrozen(it)) Object.values(Object.freeze(it)).forEach(frozen);
  return it;
}

// What a constructor is given behind the text: a mode, or parts that are to be others, with a mode or not.
function optionsOf(given) {
  if (typeof given !== 'object' || given === null) return { mode: given, changes: {} };
  const { mode, ...changes } = given;
  return { mode, changes };
}

// What two regions and subdivisions say of data: see dataLocale.
const isData = text => tryNormalize(text, 'data').normal !== undefined;

/**
 * A locale, a language identifier or a data locale that does not change. Its own properties are its normal text and its mode, so a
 * structured clone keeps these, and the constructor takes such a clone.
 */
export class Locale {
  #found; // its parts, once they were asked for
  #told; // those that the module told, by their calls or keys
  constructor(given, options) {
    const { mode = given?.mode ?? 'locale', changes } = optionsOf(options);
    const normal = normalize(given, mode);
    this.normal = changesAny(changes) ? normalize(changedText(partsOfNormal(normal), changes), mode) : normal;
    this.mode = named(mode);
    Object.freeze(this);
  }

  /** The locale of the text, or null if there is none. */
  static tryParse(text, mode = 'locale') {
    const { normal } = tryNormalize(text, mode);
    return normal === undefined ? null : new Locale(normal, mode);
  }

  /** The byte order of the normal texts of two locales, for `sort`. */
  static compare(one, other) {
    return compare(one, other, one?.mode ?? 'locale');
  }

  /** Whether the text means something. */
  static isWellFormed(text, mode = 'locale') {
    return check(text, mode) === 'Done';
  }

  get #parts() {
    return this.#found ??= partsOfNormal(this.normal);
  }

  // A part that the module tells, by that call; asked once.
  #tell(call) {
    const told = this.#told ??= {};
    if (!(call in told)) [, told[call]] = partBy(call, this.normal, LOCALE);
    return told[call];
  }

  // The value of a keyword, likewise.
  #keyword(key) {
    const told = this.#told ??= {};
    if (!(key in told)) [, told[key]] = keywordBy(this.normal, LOCALE, key);
    return told[key];
  }

  /** All parts, which do not change either. */
  get parts() {
    return frozen(this.#parts);
  }

  get language() {
    return this.#tell('web_language_of');
  }

  get script() {
    return this.#tell('web_script_of') || undefined;
  }

  get region() {
    return this.#tell('web_region_of') || undefined;
  }

  get variants() {
    return this.#tell('web_variants_of') || undefined;
  }

  get baseName() {
    return this.#tell('web_base_name_of');
  }

  get attributes() {
    return this.parts.attributes;
  }

  get keywords() {
    return this.parts.keywords;
  }

  get transform() {
    return this.parts.transform;
  }

  get others() {
    return this.parts.others;
  }

  get private() {
    return this.parts.private;
  }

  get calendar() {
    return this.#keyword('ca');
  }

  get caseFirst() {
    return this.#keyword('kf');
  }

  get collation() {
    return this.#keyword('co');
  }

  get firstDayOfWeek() {
    return this.#keyword('fw');
  }

  get hourCycle() {
    return this.#keyword('hc');
  }

  get numberingSystem() {
    return this.#keyword('nu');
  }

  get numeric() {
    return this.#keyword('kn') === '';
  }

  /** Another locale, of the same mode, of which some parts are others. A part that is given as undefined goes. */
  with(changes) {
    return new Locale(this, { ...changes, mode: this.mode });
  }

  /** A locale that also has the attributes and keywords of the other one, whose values win. */
  extendUnicode(other) {
    const { attributes, keywords } = new Locale(other).parts;
    return this.with({ attributes: [...new Set([...this.attributes, ...attributes])], keywords: { ...this.keywords, ...keywords } });
  }

  /** The locale without its extensions; without those, without its last variant, region, script or language. `und` has none: null. */
  parent() {
    const above = this.#tell('web_parent');
    return above === undefined ? null : new Locale(above, this.mode);
  }

  /** The data locale by which data is looked up: of the locale's own region, with `sd`, or of that which `rg` names. */
  dataLocale(priority = 'language') {
    if (priority !== 'language' && priority !== 'region') throw new TypeError(`no priority ${String(priority)}: it is 'language' or 'region'`);
    const { language, script, region, variants, keywords: { sd, rg } } = this.#parts;
    const text = (of, part) => [language, script, of, variants[0], part && `u-sd-${part}`].filter(Boolean).join('-');
    if (priority === 'region' && rg && isData(`und-u-sd-${rg}`)) return new Locale(text('', rg), 'data');
    const own = sd && isData(text(region, sd)) ? text(region, sd) : text(region);
    return new Locale(own, 'data');
  }

  /** Whether it is of the same mode and means the same as another one, or as a text. What is neither is not equal. */
  equals(other) {
    if (other instanceof Locale) return this.mode === other.mode && this.normal === other.normal;
    try { return normalizingEq(this.normal, other, this.mode); } catch (error) {
      if (error instanceof TypeError) return false;
      throw error;
    }
  }

  // For `Intl`, which takes a list of texts where it does not know the class: it is a list of its text.

  get length() {
    return 1;
  }

  get 0() {
    return this.normal;
  }

  toString() {
    return this.normal;
  }

  toJSON() {
    return this.normal;
  }

  get [Symbol.toStringTag]() {
    return 'Locale';
  }

  [Symbol.for('nodejs.util.inspect.custom')]() {
    return `Locale '${this.normal}'`;
  }
}
