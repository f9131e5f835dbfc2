/** What a text is read as: a language identifier, a locale, or a data locale. */
export type Mode = 'langid' | 'locale' | 'data';

/** Why a text has no normal text. `BeyondLimits`: more than 64 pieces (but for data locales) or 65,535 bytes; it may be good or not. */
export type ErrorCode = 'InvalidLanguage' | 'InvalidSubtag' | 'InvalidExtension' | 'DuplicatedExtension' | 'BeyondLimits';

/** How a call ends. */
export type Code = 'Done' | ErrorCode;

/** A string, which is read as UTF-8, or bytes of any encoding. */
export type Bytes = string | Uint8Array;

/** A structured clone of a Locale, as another window or worker gets it. */
export interface LocaleClone {
  readonly normal: string;
  readonly mode?: Mode;
}

/** A text, or a locale in the place of its text. */
export type Text = Bytes | LocaleClone | Intl.Locale;

/** A mode. A number, as `map` passes it behind a text, stands for 'locale'. */
export type ModeOrIndex = Mode | number;

/** A text that has no normal text, or is beyond the limits; or a part that is none. */
export class LocaleError extends RangeError {
  constructor(code: ErrorCode, text: Bytes, mode: Mode, part?: string);
  /** How many frames of the stack each error keeps, in V8: 0 unless you set it, and no `stack`. With frames it takes five times as long. */
  static stackTraceLimit: number;
  readonly name: 'LocaleError';
  readonly code: ErrorCode;
  readonly text: Bytes;
  readonly mode: Mode;
  /** The name of the part that is refused, as `region` or `keywords.ca`, where one was given. */
  readonly part?: string;
  /** Why, where, and what may stand there: `Invalid subtag: 'foo' at 3..6: a script, a region, a variant or an extension may stand here`. */
  message: string;
  /** Where the fault begins, in units of the string or in bytes; undefined beyond the limits. */
  readonly start: number | undefined;
  /** Where it ends. At the end of the text, and equal to start, if more is wanted there. */
  readonly end: number | undefined;
  /** What may stand there, in words: `a script`, `a region`, `the end`; none of a part, or beyond the limits. */
  readonly expected: readonly string[];
  /** What to do about a text such as `en_US`, in words: `use hyphens in place of underscores`. */
  readonly hint: string | undefined;
  /** All that it says. A structured clone keeps at most the message, so send this. */
  toJSON(): {
    name: 'LocaleError';
    message: string;
    code: ErrorCode;
    text: string | number[];
    mode: Mode;
    part?: string;
    start: number | undefined;
    end: number | undefined;
    expected: readonly string[];
    hint: string | undefined;
  };
}

/** Why a text is refused. All but its code is looked for when it is first asked for. */
export interface Refusal {
  readonly code: ErrorCode;
  /** That of the LocaleError. */
  readonly message: string;
  /** Where the first piece begins with which no accepted text goes on; the end of the text if more is wanted; undefined beyond the limits. */
  readonly start: number | undefined;
  readonly end: number | undefined;
  /** What may stand there, in words. */
  readonly expected: readonly string[];
  /** What to do about a text such as `en_US`, in words. */
  readonly hint: string | undefined;
  toJSON(): Omit<Refusal, 'toJSON'>;
}

/** The normal text of what the text means. Throws a LocaleError if there is none. */
export function normalize(text: Text, mode?: ModeOrIndex): string;

/** The normal text of what the text means, or why there is none. */
export function tryNormalize(
  text: Text,
  mode?: ModeOrIndex,
): { normal: string; code?: undefined; message?: undefined } | (Refusal & { readonly normal?: undefined });

/** `Done` if the text means something, or why not. */
export function check(text: Text, mode?: ModeOrIndex): Code;

/** The byte order of the normal texts of both: -1, 0 or 1. Throws a LocaleError if one has none. */
export function compare(text: Text, other: Text, mode?: ModeOrIndex): -1 | 0 | 1;

/** Whether both texts mean the same; false if the other means nothing. Throws a LocaleError if the text means nothing. */
export function normalizingEq(text: Text, other: Text, mode?: ModeOrIndex): boolean;

/**
 * Whether a range stands for the locale that the text means: the extended filtering of RFC 4647, section 3.3.2, with `und` for its
 * wildcard. `zh-Hant-TW` matches `zh-TW`. Throws a LocaleError if one of both means nothing.
 */
export function matches(text: Text, range: Text): boolean;

/**
 * What the name of a locale, as files and systems write it, is in the form of UTS #35: `sr-Latn-RS` of `sr_RS.UTF-8@latin`. Nothing is
 * normalized or refused, but for a text of more than 65,535 bytes. Bytes are given for bytes.
 */
export function clean(name: string): string;
export function clean(name: Uint8Array): Uint8Array;

/** Language, script, region and variants of what the text means. This and those below throw as normalize does. */
export function baseNameOf(text: Text, mode?: ModeOrIndex): string;
/** The language; `und` if it is unknown. */
export function languageOf(text: Text, mode?: ModeOrIndex): string;
export function scriptOf(text: Text, mode?: ModeOrIndex): string | undefined;
export function regionOf(text: Text, mode?: ModeOrIndex): string | undefined;
/** The variants with hyphens between them. */
export function variantsOf(text: Text, mode?: ModeOrIndex): string | undefined;
/** The value of a keyword by its key, in any case; empty where the key stands alone, undefined where it is not there. */
export function keywordOf(text: Text, key: Bytes, mode?: ModeOrIndex): string | undefined;
/** The text without its extensions; without those, without its last variant, region, script or language. null of `und`. */
export function parent(text: Text, mode?: ModeOrIndex): string | null;

/** What a piece of a normal text is. A `field` is a key of `t`, a `key` one of `u`. */
export type Kind =
  | 'language' | 'script' | 'region' | 'variant' | 'singleton' | 'attribute' | 'key' | 'field' | 'value' | 'other' | 'private';

export interface Piece {
  readonly text: string;
  /** Where it begins in the normal text. */
  readonly start: number;
  /** Where it ends. */
  readonly end: number;
  readonly kind: Kind;
  /** The singleton of its extension; empty in the identifier in front. */
  readonly of: string;
}

export interface Identifier {
  readonly language: string;
  readonly script: string;
  readonly region: string;
  readonly variants: readonly string[];
}

export interface Transform extends Identifier {
  readonly fields: Readonly<Record<string, string>>;
}

/** The parts of a text. A part that is not there is empty. */
export interface Parts extends Identifier {
  readonly normal: string;
  readonly attributes: readonly string[];
  /** The value of each key of `u`; empty where it is `true`. */
  readonly keywords: Readonly<Record<string, string>>;
  /** What follows `t`, if anything does. */
  readonly transform: Transform | null;
  /** What follows each other singleton. */
  readonly others: Readonly<Record<string, string>>;
  readonly private: readonly string[];
  /** All pieces of the normal text, in order. */
  readonly pieces: readonly Piece[];
}

/** The parts of what the text means. Throws as normalize does. */
export function parts(text: Text, mode?: ModeOrIndex): Parts;

/** The parts of a normal text of any mode. Throws as normalize does. */
export function partsOfNormal(normal: string): Parts;

/** Why a text is refused, and where. */
export interface Fault extends Refusal {
  readonly code: Exclude<ErrorCode, 'BeyondLimits'>;
  readonly start: number;
  readonly end: number;
}

/** The fault of a refused text; null if it is accepted, or beyond the limits. */
export function findFault(text: Text, mode?: ModeOrIndex): Fault | null;

/** Parts that are to be others. One that is undefined or null goes; one that is left out stays. */
export interface Changes {
  language?: string | null;
  script?: string | null;
  region?: string | null;
  /** All variants, as a list or with hyphens between them. */
  variants?: string | Iterable<string> | null;
  /** All attributes of `u`. */
  attributes?: string | Iterable<string> | null;
  /** All keywords of `u`; an empty value or `true` is none, `false` is `false`. */
  keywords?: Readonly<Record<string, string | boolean | null | undefined>> | null;
  /** The value of `ca` alone; likewise those below. */
  calendar?: string | boolean | null;
  caseFirst?: string | boolean | null;
  collation?: string | boolean | null;
  /** Of `fw`: a day such as `mon`, or its number from 0 to 7, where 0 and 7 are Sunday. */
  firstDayOfWeek?: string | number | boolean | null;
  hourCycle?: string | boolean | null;
  numberingSystem?: string | boolean | null;
  numeric?: string | boolean | null;
  /** What follows `t`: its text, its parts, or a locale. */
  transform?: string | Partial<Transform> | LocaleClone | null;
  /** All other extensions, each by its singleton. */
  others?: Readonly<Record<string, string | null | undefined>> | null;
  private?: string | Iterable<string> | null;
}

/** A locale, a language identifier or a data locale. It does not change. */
export class Locale implements LocaleClone {
  /**
   * Throws a LocaleError if the text means nothing in the mode, or if one of the parts is none. Without a mode, that of a Locale that
   * is given, else 'locale'.
   */
  constructor(text: Text, options?: Mode | (Changes & { mode?: Mode }));
  /** The locale of the text, or null if there is none. */
  static tryParse(text: Text, mode?: ModeOrIndex): Locale | null;
  /** The byte order of the normal texts, for `sort`: -1, 0 or 1. */
  static compare(one: Text, other: Text): -1 | 0 | 1;
  /** Whether the text means something. */
  static isWellFormed(text: Text, mode?: ModeOrIndex): boolean;
  /** The normal text. */
  readonly normal: string;
  readonly mode: Mode;
  readonly parts: Parts;
  readonly language: string;
  readonly script: string | undefined;
  readonly region: string | undefined;
  /** The variants with hyphens between them. */
  readonly variants: string | undefined;
  /** Language, script, region and variants. */
  readonly baseName: string;
  readonly attributes: readonly string[];
  readonly keywords: Readonly<Record<string, string>>;
  readonly transform: Transform | null;
  readonly others: Readonly<Record<string, string>>;
  readonly private: readonly string[];
  /** The value of `ca`; empty where the key is there without a value. */
  readonly calendar: string | undefined;
  /** The value of `kf`. */
  readonly caseFirst: string | undefined;
  /** The value of `co`. */
  readonly collation: string | undefined;
  /** The value of `fw`. */
  readonly firstDayOfWeek: string | undefined;
  /** The value of `hc`. */
  readonly hourCycle: string | undefined;
  /** The value of `nu`. */
  readonly numberingSystem: string | undefined;
  /** Whether `kn` is there, and is `true`. */
  readonly numeric: boolean;
  /** Another locale, of the same mode, with these parts in place of its own. Throws a LocaleError that names a part that is none. */
  with(changes: Changes): Locale;
  /** A locale that also has the attributes and keywords of the other one, whose values win. */
  extendUnicode(other: Text): Locale;
  /** The locale without its extensions; without those, without its last variant, region, script or language. null of `und`. */
  parent(): Locale | null;
  /** The data locale by which data is looked up: of its own region, with the keyword `sd`, or of that which `rg` names. */
  dataLocale(priority?: 'language' | 'region'): Locale;
  /** Whether it is of the same mode and means the same as another one, or means what a text means. What is neither is not equal. */
  equals(other: unknown): boolean;
  /** It is a list of its text, as `Intl` takes one. */
  readonly length: 1;
  readonly 0: string;
  toString(): string;
  toJSON(): string;
}

/** The words of a code. */
export function wordsOf(code: Code): string;

/** The version of the module's calls. */
export const version: number;

/** Whether the engine has no 64-bit memory, so that the form of the module for 32 bits runs, which nothing proves. */
export const isNarrow: boolean;

/** The bytes of the module that runs. */
export const size: number;
