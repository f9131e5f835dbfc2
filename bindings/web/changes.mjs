// The text of a locale of which some parts are others. The proved module reads each part that is given, alone: all of its
// pieces must be what the part consists of. So no part can bring in another one.
import { DONE, LOCALE, partsOf } from './calls.mjs';
import { LocaleError } from './errors.mjs';

// The keywords that have names of their own, as `Intl.Locale` has them.
const NAMED = { calendar: 'ca', caseFirst: 'kf', collation: 'co', firstDayOfWeek: 'fw', hourCycle: 'hc', numberingSystem: 'nu', numeric: 'kn' };
// The days that numbers stand for, as `Intl.Locale` has them: 0 and 7 are Sunday.
const DAYS = ['sun', 'mon', 'tue', 'wed', 'thu', 'fri', 'sat', 'sun'];
// What stands before each part where it is read alone, and the kinds of all pieces then.
const ALONE = {
  language: ['', /^language$/, 'InvalidLanguage'],
  script: ['und-', /^language script$/, 'InvalidSubtag'],
  region: ['und-', /^language region$/, 'InvalidSubtag'],
  variants: ['und-', /^language variant$/, 'InvalidSubtag'],
  attributes: ['und-u-', /^language singleton attribute$/, 'InvalidExtension'],
  key: ['und-u-', /^language singleton key$/, 'InvalidExtension'],
  keyword: ['und-u-', /^language singleton key( value)*$/, 'InvalidExtension'],
  field: ['und-t-', /^language singleton field( value)+$/, 'InvalidExtension'],
  transform: ['und-t-', /^language singleton( language| script| region| variant| field| value)+$/, 'InvalidExtension'],
  others: ['und-', /^language singleton( other)+$/, 'InvalidExtension'],
  private: ['und-x-', /^language singleton( private)+$/, 'InvalidExtension'],
};

const isNone = it => it === undefined || it === null || it === '';
const dayOf = given => /^[0-7]$/.test(given) ? DAYS[given] : given;
const join = (...texts) => texts.flat().filter(it => it !== '').join('-');

// A part as it was given, if it is one. `name` is what its refusal calls it, and `shown` the text that it is said of.
function alone(part, given, name = part, shown = given) {
  if (typeof given !== 'string') throw new TypeError(`${name}: a part is a string, and not ${typeof given}`);
  const [before, kinds, code] = ALONE[part], { status, pieces } = partsOf(before + given, LOCALE);
  if (status !== DONE || !kinds.test(pieces.map(it => it.kind).join(' '))) throw new LocaleError(code, shown, 'locale', name);
  return given;
}

const one = (part, given, name = part) => isNone(given) ? '' : alone(part, given, name);
const listOf = given => isNone(given) ? [] : typeof given === 'string' ? given.split('-') : [...given];
const list = (part, given, name = part) => listOf(given).map(it => alone(part, it, name));

// A key and its value, which may be `true`, in words or not at all.
function keyword(key, value, name = `keywords.${key}`) {
  alone('key', key, name);
  if (value === true || isNone(value)) return key;
  const text = value === false ? 'false' : `${value}`;
  return alone('keyword', `${key}-${text}`, name, text);
}

// All keywords, by their keys in lower case: those that stay or are given, and those that are given by their own names.
function keywordsOf(found, given) {
  const values = new Map();
  for (const [key, value] of Object.entries(given.keywords === undefined && !('keywords' in given) ? found.keywords : given.keywords ?? {}))
    if (value !== undefined && value !== null) values.set(key.toLowerCase(), [value]);
  for (const [name, key] of Object.entries(NAMED)) {
    if (!(name in given)) continue;
    if (given[name] === undefined || given[name] === null) values.delete(key);
    else values.set(key, [key === 'fw' ? dayOf(given[name]) : given[name], name]);
  }
  return [...values].map(([key, [value, name]]) => keyword(key, value, name));
}

// A field of `t`: its key has a letter and a digit, and a value.
function field(key, value) {
  const name = `transform.fields.${key}`;
  alone('field', `${key}-aaa`, name, key);
  return alone('field', `${key}-${value}`, name, `${value}`);
}

function identifier(given, name) {
  const { language, script, region, variants } = given, of = part => `${name}${part}`;
  return [one('language', language, of('language')), one('script', script, of('script')), one('region', region, of('region')),
    ...list('variants', variants, of('variants'))];
}

// What stands after `t`.
function transformOf(given) {
  if (isNone(given)) return [];
  if (typeof given !== 'object') return [alone('transform', given)];
  if (typeof given.normal === 'string') return [alone('transform', given.normal)];
  const of = identifier(given, 'transform.'), fields = Object.entries(given.fields ?? {}).map(it => field(...it));
  if (of[0] === '' && of.some(it => it !== '')) throw new LocaleError('InvalidLanguage', '', 'locale', 'transform.language');
  return [...of, ...fields];
}

function other(singleton, given) {
  const name = `others.${singleton}`;
  if (singleton.length !== 1) throw new LocaleError('InvalidExtension', singleton, 'locale', name);
  return alone('others', `${singleton}-${given}`, name, `${given}`);
}

const othersOf = given => Object.entries(given ?? {}).filter(([, value]) => !isNone(value)).map(it => other(...it));
const behind = (singleton, texts) => texts.some(it => it !== '') ? [singleton, ...texts] : [];
const NAMES = new Set(['language', 'script', 'region', 'variants', 'attributes', 'keywords', 'transform', 'others', 'private', ...Object.keys(NAMED)]);

/** The text of the parts of a normal text, with those in place that are given. A part that is given as undefined goes. */
export function changedText(found, given) {
  for (const name of Object.keys(given)) if (!NAMES.has(name)) throw new TypeError(`no part ${name}`);
  const of = name => name in given ? given[name] : found[name];
  const front = identifier({ language: of('language'), script: of('script'), region: of('region'), variants: of('variants') }, '');
  const u = [...list('attributes', of('attributes')), ...keywordsOf(found, given)], words = listOf(of('private')).join('-');
  return join(front[0] || 'und', front.slice(1), behind('u', u), behind('t', transformOf(of('transform'))), othersOf(of('others')),
    behind('x', [one('private', words)]));
}

/** Whether some part is to be another one. */
export const changesAny = given => Object.keys(given).length > 0;
