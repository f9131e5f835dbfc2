// What a caller in TypeScript writes. tsc --strict is to accept it, and to find an error in each line that says so.
import { Locale, LocaleError, baseNameOf, check, clean, compare, findFault, keywordOf, matches, normalize, normalizingEq, parent, parts, scriptOf,
  tryNormalize } from 'icu-locale-web';
import type { Changes, Code, Fault, Kind, Mode, Parts, Refusal } from 'icu-locale-web';

const mode: Mode = 'langid';
const normal: string = normalize('EN', mode);
const code: Code = check(new Uint8Array([101, 110]));
const answer = tryNormalize(normal);
const text: string = answer.code === undefined ? answer.normal : answer.message;
const order: -1 | 0 | 1 = compare('en', 'de');
const same: boolean = normalizingEq('en', 'EN', 'data');
const found: Parts = parts('en-u-ca-buddhist');
const kinds: Kind[] = found.pieces.map(it => it.kind);
const fault: Fault | null = findFault('en-');
const expected: readonly string[] | undefined = fault?.expected, hint: string | undefined = fault?.hint;
const refused: Refusal | null = answer.code === undefined ? null : answer;
const told: string = baseNameOf('en-US'), script: string | undefined = scriptOf('en'), value: string | undefined = keywordOf('en-u-ca-roc', 'ca');
const next: string | null = parent('en-US', 'langid'), isOne: boolean = matches('zh-Hant-TW', new Locale('zh-TW'));
const left: string = clean('en_US'), bytes: Uint8Array = clean(Uint8Array.of(101, 110));
console.log(expected, hint, refused?.start, told, script, value, next, isOne, left, bytes);
const locale = new Locale('en');
const region: string | undefined = locale.region;
try {
  normalize(text);
} catch (error) {
  if (error instanceof LocaleError) console.log(error.code, error.start ?? 0, error.end, error.expected.length, error.hint ?? '');
}
const changes: Changes = { region: 'GB', calendar: 'buddhist', script: undefined, variants: ['posix'], keywords: { nu: 'latn' } };
const other: Locale = new Locale('en', { mode: 'locale', numeric: true }).with({ ...changes, transform: { language: 'de' } });
const texts: string[] = ['EN', 'de-at'].map(normalize);
const sorted: Locale[] = [locale, other].sort(Locale.compare);
const shown: string = new Intl.DateTimeFormat(String(locale)).format();
const above: Locale | null = other.parent(), tried: Locale | null = Locale.tryParse(new Intl.Locale('de'));
console.log(texts, sorted, shown, above, tried, locale.equals(undefined), normalize(other), other.dataLocale('region'));
console.log(code, order, same, kinds, fault?.start, region, locale.equals('en'), locale.keywords.ca);
// @ts-expect-error
normalize(7);
// @ts-expect-error
normalize('en', 'other');
// @ts-expect-error
locale.region = 'GB';
// @ts-expect-error
found.variants.push('posix');
// @ts-expect-error
const none: string = locale.script;
// @ts-expect-error
locale.with({ regoin: 'GB' });
// @ts-expect-error
locale.with({ region: 5 });
// @ts-expect-error
const without: string = scriptOf('en');
// @ts-expect-error
clean(new Locale('en'));
