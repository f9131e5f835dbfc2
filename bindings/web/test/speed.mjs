// The package beside node's Intl: how their answers differ, by kind, on the vectors; and nanoseconds a call, on the lines of
// vectors/real.in to which both give one text, or which both refuse. The least of many short rounds, since other work may run
// on the machine. It prints JSON.
import { asString, module, real, texts, web } from './answers.mjs';

const { Locale, check, compare, findFault, matches, normalize, parent, parts, regionOf, tryNormalize } = web;
const canonical = text => { try { return Intl.getCanonicalLocales(text)[0]; } catch { return null; } };
const identifierOf = ({ language, script, region, variants }) => [language, script, region, ...variants].join('-');
const none = { language: '', script: '', region: '', variants: [] };
const SAME = 'the same text', REFUSED = 'both refuse it';

// How the answer to a text differs from that of Intl.
function differenceOf(text) {
  const ours = tryNormalize(text), theirs = canonical(text);
  if (ours.code !== undefined) return theirs === null ? REFUSED : 'refused here alone';
  if (theirs === null) return 'refused by `Intl` alone';
  if (ours.normal === theirs) return SAME;
  if (check(theirs) !== 'Done') return 'the text of `Intl` is refused here';
  const [a, b] = [parts(ours.normal), parts(theirs)];
  if (identifierOf(a) !== identifierOf(b)) return 'an alias in the identifier';
  if (JSON.stringify(a.keywords) !== JSON.stringify(b.keywords)) return 'an alias in a keyword';
  if (identifierOf(a.transform ?? none) !== identifierOf(b.transform ?? none)) return 'an alias in the identifier of `t`';
  return '`Intl` keeps `true`, or a repeated field of `t`';
}

// Counts the lines of each kind, with the shortest as an example.
function differences(sets) {
  const kinds = new Map();
  sets.forEach((set, column) => {
    for (const text of set) {
      const name = differenceOf(text), it = kinds.get(name) ?? { counts: sets.map(() => 0), text };
      it.counts[column]++;
      if (text.length < it.text.length) it.text = text;
      kinds.set(name, it);
    }
  });
  const shown = name => name !== SAME && name !== REFUSED;
  return [...kinds].map(([name, { counts, text }]) => [name, counts, shown(name) ? [text, tryNormalize(text).normal, canonical(text)] : null]);
}

let kept = 0;
function time(call, lines) {
  for (let i = 0; i < 40; i++) for (const it of lines) kept += call(it) ? 1 : 0;
  let least = Infinity;
  for (let round = 0; round < 150; round++) {
    const start = process.hrtime.bigint();
    for (const it of lines) kept += call(it) ? 1 : 0;
    least = Math.min(least, Number(process.hrtime.bigint() - start) / lines.length);
  }
  return Math.round(least);
}

const lines = real.map(asString).filter(it => it !== null);
const same = lines.filter(it => differenceOf(it) === SAME), refused = lines.filter(it => differenceOf(it) === REFUSED);
const isExtended = text => text.split('-').some(it => it.length === 1);
const plain = same.filter(it => !isExtended(it)), extended = same.filter(isExtended);
const pairs = same.map((it, at) => [it, same[(at + 1) % same.length]]);
const parted = ({ language, script, region }) => [language, script, region];
const caught = text => { try { return normalize(text); } catch { return 1; } };
const canonicals = lines => time(it => Intl.getCanonicalLocales(it), lines);
const rows = [
  ['`normalize`', 'plain', time(normalize, plain), '`Intl.getCanonicalLocales`', canonicals(plain)],
  ['`normalize`', 'extended', time(normalize, extended), '`Intl.getCanonicalLocales`', canonicals(extended)],
  ['`normalize`, caught', 'refused', time(caught, refused), '`Intl.getCanonicalLocales`, caught', time(it => !canonical(it), refused)],
  ['`tryNormalize`', 'refused', time(tryNormalize, refused), '`Intl.getCanonicalLocales`, caught', time(it => !canonical(it), refused)],
  ['`tryNormalize` and `message`', 'refused', time(it => tryNormalize(it).message, refused), '', null],
  ['`findFault`', 'refused', time(it => findFault(it).start + 1, refused), '', null],
  ['`check`', 'plain', time(check, plain), '', null],
  ['`check`', 'extended', time(check, extended), '', null],
  ['`check`', 'refused', time(check, refused), '', null],
  ['`matches`', 'accepted', time(([a, b]) => matches(a, b) || 1, pairs), '', null],
  ['`regionOf`', 'accepted', time(it => regionOf(it) ?? 1, same), '', null],
  ['`parent`', 'accepted', time(parent, same), '', null],
  ['`compare`', 'accepted', time(([a, b]) => compare(a, b) + 2, pairs), '', null],
  ['`parts`', 'accepted', time(it => parts(it), same), '', null],
  ['`new Locale`, three parts', 'accepted', time(it => parted(new Locale(it)), same), '`new Intl.Locale`, three parts', time(it => parted(new Intl.Locale(it)), same)],
];
const counts = { plain: plain.length, extended: extended.length, refused: refused.length };
console.log(JSON.stringify({ node: process.version, icu: process.versions.icu, isNarrow: module.isNarrow, counts, rows,
  differences: differences([lines, texts.map(asString).filter(it => it !== null)]), kept: kept > 0 }));
