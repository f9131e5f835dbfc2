// The class Locale: other parts, what is made of them, and where a locale goes: Intl, structured clones, other calls.
import test from 'node:test';
import assert from 'node:assert/strict';
import { MessageChannel } from 'node:worker_threads';
import { inspect } from 'node:util';
import { MODES, asString, real, texts, web } from './answers.mjs';

const { Locale, LocaleError, check, compare, normalize, normalizingEq, parts, tryNormalize } = web;
const lines = [...texts, ...real].map(asString).filter(it => it !== null);
const shown = (text, changes, mode) => String(new Locale(text, mode).with(changes));

for (const mode of MODES) {
  test(`a locale with its own parts is the same, ${mode}`, () => {
    let count = 0;
    for (const text of lines) {
      const it = Locale.tryParse(text, mode);
      if (it === null) continue;
      count++;
      const { language, script, region, variants, attributes, keywords, transform, others, private: words } = it.parts;
      assert.equal(String(it.with({ language })), it.normal);
      assert.equal(String(it.with({ language, script, region, variants, attributes, keywords, transform, others, private: words })), it.normal);
    }
    assert.ok(count > 500, `${count} are accepted`);
  });
}

// What Intl.Locale makes of options is wanted here too, if it changes nothing else of the text.
test('parts that change as those of Intl.Locale do', () => {
  const options = [{ region: 'GB' }, { script: 'Cyrl' }, { language: 'nl' }, { calendar: 'buddhist' }, { calendar: 'islamic-civil', numberingSystem: 'arab' },
    { numeric: false }, { hourCycle: 'h23', collation: 'phonebk', caseFirst: 'upper' }, { language: 'SR', script: 'LATN', region: 'rs' }];
  const canonical = text => { try { return String(new Intl.Locale(text)); } catch { return null; } };
  const some = lines.filter((_, at) => at % 4 === 0); // (Intl takes long)
  const same = some.filter(it => { const { normal } = tryNormalize(it); return normal !== undefined && normal === canonical(it); });
  let count = 0;
  for (const text of same) {
    for (const it of options) {
      const theirs = String(new Intl.Locale(text, it));
      if (normalize(theirs) !== theirs || theirs !== canonical(shown(text, it))) continue; // (an alias of Intl came in)
      count++;
      assert.equal(shown(text, it), theirs, `${text} ${JSON.stringify(it)}`);
      assert.equal(String(new Locale(text, it)), theirs);
    }
  }
  assert.ok(count > 1500, `${count} are the same`);
});

test('each part changes alone', () => {
  const text = 'en-Latn-US-posix-a-foo-t-de-m0-din-u-attr-ca-roc-kn-x-a';
  const wanted = [
    [{ language: 'de' }, 'de-Latn-US-posix-a-foo-t-de-m0-din-u-attr-ca-roc-kn-x-a'],
    [{ language: undefined }, 'und-Latn-US-posix-a-foo-t-de-m0-din-u-attr-ca-roc-kn-x-a'],
    [{ script: undefined, region: null }, 'en-posix-a-foo-t-de-m0-din-u-attr-ca-roc-kn-x-a'],
    [{ variants: ['rozaj', 'FONIPA'] }, 'en-Latn-US-fonipa-rozaj-a-foo-t-de-m0-din-u-attr-ca-roc-kn-x-a'],
    [{ variants: 'macos' }, 'en-Latn-US-macos-a-foo-t-de-m0-din-u-attr-ca-roc-kn-x-a'],
    [{ variants: [] }, 'en-Latn-US-a-foo-t-de-m0-din-u-attr-ca-roc-kn-x-a'],
    [{ attributes: [] }, 'en-Latn-US-posix-a-foo-t-de-m0-din-u-ca-roc-kn-x-a'],
    [{ attributes: ['zzz', 'AAA'] }, 'en-Latn-US-posix-a-foo-t-de-m0-din-u-aaa-zzz-ca-roc-kn-x-a'],
    [{ keywords: { nu: 'latn', HC: 'h12' } }, 'en-Latn-US-posix-a-foo-t-de-m0-din-u-attr-hc-h12-nu-latn-x-a'],
    [{ keywords: {} }, 'en-Latn-US-posix-a-foo-t-de-m0-din-u-attr-x-a'],
    [{ keywords: {}, attributes: undefined }, 'en-Latn-US-posix-a-foo-t-de-m0-din-x-a'],
    [{ keywords: { nu: 'latn' }, calendar: 'iso8601' }, 'en-Latn-US-posix-a-foo-t-de-m0-din-u-attr-ca-iso8601-nu-latn-x-a'],
    [{ keywords: { CA: 'iso8601' }, calendar: 'gregory' }, 'en-Latn-US-posix-a-foo-t-de-m0-din-u-attr-ca-gregory-x-a'],
    [{ calendar: undefined, numeric: undefined }, 'en-Latn-US-posix-a-foo-t-de-m0-din-u-attr-x-a'],
    [{ numeric: false, collation: 'phonebk' }, 'en-Latn-US-posix-a-foo-t-de-m0-din-u-attr-ca-roc-co-phonebk-kn-false-x-a'],
    // (the numbers of days as ECMA-402 has them: WeekdayToUValue)
    ...[[0, 'sun'], [1, 'mon'], ['2', 'tue'], [3, 'wed'], [4, 'thu'], [5, 'fri'], [6, 'sat'], [7, 'sun'], ['mon', 'mon'], ['map', 'map']].map(([firstDayOfWeek, day]) =>
      [{ keywords: {}, attributes: [], firstDayOfWeek }, `en-Latn-US-posix-a-foo-t-de-m0-din-u-fw-${day}-x-a`]),
    [{ transform: null }, 'en-Latn-US-posix-a-foo-u-attr-ca-roc-kn-x-a'],
    [{ transform: 'FR-latn-h0-hybrid' }, 'en-Latn-US-posix-a-foo-t-fr-latn-h0-hybrid-u-attr-ca-roc-kn-x-a'],
    [{ transform: new Locale('fr-FR') }, 'en-Latn-US-posix-a-foo-t-fr-fr-u-attr-ca-roc-kn-x-a'],
    [{ transform: { language: 'fr', variants: ['posix'], fields: { m0: 'foo-bar' } } }, 'en-Latn-US-posix-a-foo-t-fr-posix-m0-foo-bar-u-attr-ca-roc-kn-x-a'],
    [{ transform: { fields: { m0: 'foo' } } }, 'en-Latn-US-posix-a-foo-t-m0-foo-u-attr-ca-roc-kn-x-a'],
    [{ others: { b: 'bar-baz', a: undefined } }, 'en-Latn-US-posix-b-bar-baz-t-de-m0-din-u-attr-ca-roc-kn-x-a'],
    [{ private: ['b', 'c'] }, 'en-Latn-US-posix-a-foo-t-de-m0-din-u-attr-ca-roc-kn-x-b-c'],
    [{ private: 'd-e' }, 'en-Latn-US-posix-a-foo-t-de-m0-din-u-attr-ca-roc-kn-x-d-e'],
    [{ private: undefined }, 'en-Latn-US-posix-a-foo-t-de-m0-din-u-attr-ca-roc-kn'],
  ];
  const it = new Locale(text);
  for (const [changes, result] of wanted) assert.equal(String(it.with(changes)), result, JSON.stringify(changes));
  assert.equal(it.normal, text);
  assert.equal(it.with({ region: 'GB' }).mode, 'locale');
  assert.equal(shown('en-US', { region: 'gb' }, 'langid'), 'en-GB');
  assert.equal(new Locale('en', 'data').with({ region: 'GB' }).mode, 'data');
});

test('a part that is none is refused by its name', () => {
  const refused = [
    [{ region: 'GB-posix' }, 'InvalidSubtag', 'region', 'GB-posix'],
    [{ region: 'Latn' }, 'InvalidSubtag', 'region', 'Latn'],
    [{ script: 'GB' }, 'InvalidSubtag', 'script', 'GB'],
    [{ language: 'en-GB' }, 'InvalidLanguage', 'language', 'en-GB'],
    [{ language: 'x' }, 'InvalidLanguage', 'language', 'x'],
    [{ variants: ['posix', 'u'] }, 'InvalidSubtag', 'variants', 'u'],
    [{ variants: ['posix-fonipa'] }, 'InvalidSubtag', 'variants', 'posix-fonipa'],
    [{ attributes: ['ca'] }, 'InvalidExtension', 'attributes', 'ca'],
    [{ attributes: ['foo-ca'] }, 'InvalidExtension', 'attributes', 'foo-ca'],
    [{ calendar: 'buddhist-hc-h12' }, 'InvalidExtension', 'calendar', 'buddhist-hc-h12'],
    [{ calendar: 'buddhist-x-a' }, 'InvalidExtension', 'calendar', 'buddhist-x-a'],
    [{ firstDayOfWeek: 8 }, 'InvalidExtension', 'firstDayOfWeek', '8'],
    [{ keywords: { fw: '1' } }, 'InvalidExtension', 'keywords.fw', '1'],
    [{ keywords: { ca: 'ab' } }, 'InvalidExtension', 'keywords.ca', 'ab'],
    [{ keywords: { 'ca-foo': 'bar' } }, 'InvalidExtension', 'keywords.ca-foo', 'ca-foo'],
    [{ keywords: { foo: 'bar' } }, 'InvalidExtension', 'keywords.foo', 'foo'],
    [{ transform: 'de-u-ca-roc' }, 'InvalidExtension', 'transform', 'de-u-ca-roc'],
    [{ transform: { region: 'AT' } }, 'InvalidLanguage', 'transform.language', ''],
    [{ transform: { language: 'de', region: 'AT-m0-din' } }, 'InvalidSubtag', 'transform.region', 'AT-m0-din'],
    [{ transform: { fields: { m0: 'din-h0-abc' } } }, 'InvalidExtension', 'transform.fields.m0', 'din-h0-abc'],
    [{ transform: { fields: { ca: 'din' } } }, 'InvalidExtension', 'transform.fields.ca', 'ca'],
    [{ others: { a: 'foo-b-bar' } }, 'InvalidExtension', 'others.a', 'foo-b-bar'],
    [{ others: { 'a-foo': 'bar' } }, 'InvalidExtension', 'others.a-foo', 'a-foo'],
    [{ others: { u: 'foo' } }, 'InvalidExtension', 'others.u', 'foo'],
    [{ others: { x: 'foo' } }, 'InvalidExtension', 'others.x', 'foo'],
    [{ private: 'a-ninebytes' }, 'InvalidExtension', 'private', 'a-ninebytes'],
  ];
  const it = new Locale('en');
  for (const [changes, code, part, text] of refused) {
    assert.throws(() => it.with(changes), error => error instanceof LocaleError && error.code === code && error.part === part && error.text === text
      && error.message.startsWith(`${part}: `) && error.start === 0 && error.end === text.length, JSON.stringify(changes));
    assert.throws(() => new Locale('en', changes), LocaleError);
  }
  assert.throws(() => it.with({ regoin: 'GB' }), { name: 'TypeError', message: 'no part regoin' });
  assert.throws(() => it.with({ region: 7 }), TypeError);
  assert.throws(() => new Locale('en', { mode: 'other' }), TypeError);
  assert.throws(() => it.with({ variants: ['posix', 'POSIX'] }), it => it.code === 'InvalidSubtag' && it.part === undefined);
  assert.throws(() => new Locale('en', 'langid').with({ calendar: 'roc' }), it => it.code === 'InvalidSubtag' && it.mode === 'langid');
});

test('tryParse, isWellFormed, compare, and extendUnicode', () => {
  assert.equal(Locale.tryParse('en-'), null);
  assert.equal(Locale.tryParse('en-u-ca', 'langid'), null);
  assert.equal(String(Locale.tryParse('EN')), 'en');
  assert.equal(Locale.tryParse('EN', 'data').mode, 'data');
  assert.throws(() => Locale.tryParse(7), TypeError);
  assert.deepEqual([Locale.isWellFormed('en-u-ca'), Locale.isWellFormed('en-u-ca', 'langid'), Locale.isWellFormed('en_US')], [true, false, false]);
  const sorted = ['fr', 'EN-us', 'en-u-ca-roc', 'de'].map(it => new Locale(it)).sort(Locale.compare);
  assert.deepEqual(sorted.map(String), ['de', 'en-US', 'en-u-ca-roc', 'fr']);
  assert.deepEqual(['fr', 'EN-us', 'de'].sort(Locale.compare), ['de', 'EN-us', 'fr']);
  const other = new Locale('de-u-bar-ca-buddhist'), it = new Locale('en-u-foo-ca-roc-hc-h12');
  assert.equal(String(it.extendUnicode(other)), 'en-u-bar-foo-ca-buddhist-hc-h12');
  assert.equal(String(new Locale('en').extendUnicode('de-u-kn')), 'en-u-kn');
});

test('parents and data locales', () => {
  const chain = text => {
    const found = [];
    for (let it = new Locale(text); it !== null; it = it.parent()) found.push(String(it));
    return found;
  };
  assert.deepEqual(chain('EN-latn-us-posix-macos-u-kn-x-a'), ['en-Latn-US-macos-posix-u-kn-x-a', 'en-Latn-US-macos-posix', 'en-Latn-US-macos', 'en-Latn-US',
    'en-Latn', 'en', 'und']);
  assert.deepEqual(chain('und-t-m0-din'), ['und-t-m0-din', 'und']);
  assert.equal(new Locale('en-US', 'langid').parent().mode, 'langid');
  const data = (text, priority) => String(new Locale(text).dataLocale(priority));
  assert.deepEqual([data('en-GB-u-rg-uszzzz'), data('en-GB-u-rg-uszzzz', 'region')], ['en-GB', 'en-US']);
  assert.deepEqual([data('en-US-posix-u-sd-usca-ca-roc'), data('de-u-sd-gbeng-rg-usca', 'region')], ['en-US-posix-u-sd-usca', 'de-US-u-sd-usca']);
  assert.deepEqual([data('en-US-u-sd-gbeng'), data('en-u-sd-gbeng')], ['en-US', 'en-GB-u-sd-gbeng']);
  assert.equal(new Locale('en').dataLocale().mode, 'data');
  assert.throws(() => new Locale('en').dataLocale('data'), TypeError);
});

// (the most that 65,535 bytes hold, and the numbers about which the room for their rows once ended)
test('texts of many pieces', () => {
  for (const count of [2730, 2731, 2732, 2733, 5000, 32766]) {
    const text = `en-x${'-a'.repeat(count - 2)}`, it = new Locale(text);
    assert.deepEqual([it.language, it.parts.pieces.length, it.private.length], ['en', count, count - 2]);
    assert.equal(parts(text).pieces.at(-1).end, text.length);
  }
  const most = `eng-x${'-a'.repeat(32765)}`;
  assert.equal(most.length, 65535);
  assert.equal(parts(most).pieces.length, 32767);
  assert.throws(() => parts(`${most}b`), it => it.code === 'BeyondLimits');
  assert.equal(normalize('EN'), 'en');
});

test('Intl takes a locale', () => {
  const it = new Locale('DE-de-u-nu-THAI');
  for (const name of ['DateTimeFormat', 'NumberFormat', 'Collator', 'PluralRules', 'ListFormat', 'RelativeTimeFormat', 'Segmenter'])
    assert.deepEqual(new Intl[name](it).resolvedOptions(), new Intl[name]('de-DE-u-nu-thai').resolvedOptions(), name);
  assert.equal(new Intl.DateTimeFormat(it).resolvedOptions().numberingSystem, 'thai');
  assert.equal(new Intl.DisplayNames(new Locale('fr'), { type: 'language' }).of('de'), 'allemand');
  assert.deepEqual(Intl.getCanonicalLocales(it), ['de-DE-u-nu-thai']);
  assert.deepEqual(Intl.DateTimeFormat.supportedLocalesOf(it), ['de-DE-u-nu-thai']);
  assert.equal((1.5).toLocaleString(new Locale('de')), '1,5');
  assert.equal('I'.toLocaleLowerCase(new Locale('tr')), 'ı');
});

test('calls take a locale, and map and sort take calls', () => {
  const it = new Locale('EN-us-u-kn');
  for (const given of [it, structuredClone(it), new Intl.Locale('en-US-u-kn')]) {
    assert.equal(normalize(given), 'en-US-u-kn');
    assert.equal(check(given), 'Done');
    assert.equal(tryNormalize(given, 'langid').code, 'InvalidSubtag');
    assert.equal(parts(given).region, 'US');
    assert.equal(web.findFault(given, 'langid').start, 6);
    assert.equal(compare(given, 'en-US-u-kn-true'), 0);
    assert.equal(normalizingEq('en-US-u-kn-true', given), true);
    assert.equal(String(new Locale(given)), 'en-US-u-kn');
    assert.throws(() => normalize(given, 'langid'), error => error.text === 'en-US-u-kn');
  }
  assert.deepEqual(['EN', 'de-at', 'und-LATN'].map(normalize), ['en', 'de-AT', 'und-Latn']);
  assert.deepEqual(['EN', '?'].map(check), ['Done', 'InvalidLanguage']);
  assert.deepEqual([it, new Locale('de')].sort(compare).map(String), ['de', 'en-US-u-kn']);
  assert.throws(() => ['?'].map(normalize), error => error.mode === 'locale');
  assert.equal(String(new Locale(new Locale('en-u-sd-gbeng', 'data'))), 'en-GB-u-sd-gbeng');
  for (const other of [undefined, null, 7, {}, [], Symbol('en')]) assert.equal(it.equals(other), false);
  assert.equal(it.equals(new Intl.Locale('en-US-u-kn')), true);
  assert.equal(it.equals(structuredClone(it)), true);
  for (const given of [{}, { normal: 7 }, () => 'en', Object.create(Intl.Locale.prototype)]) assert.throws(() => normalize(given), TypeError);
  assert.throws(() => new Locale({ normal: 'en', mode: 'other' }), TypeError);
  assert.throws(() => new Locale({ normal: '?' }), LocaleError);
});

test('it travels', async () => {
  const it = new Locale('EN-us-u-kn', 'locale'), other = new Locale('en-u-sd-gbeng', 'data');
  assert.deepEqual(structuredClone(it), { normal: 'en-US-u-kn', mode: 'locale' });
  assert.deepEqual(new Locale(structuredClone(other)), other);
  assert.notDeepStrictEqual(new Locale('en'), new Locale('de'));
  assert.notDeepStrictEqual(new Locale('en'), new Locale('en', 'langid'));
  it.parts;
  assert.deepStrictEqual(it, new Locale('en-US-u-kn'));
  const { port1, port2 } = new MessageChannel();
  const came = new Promise(done => port2.once('message', done));
  port1.postMessage({ it });
  const message = await came;
  port1.close();
  assert.deepEqual(new Locale(message.it), it);
  assert.equal(inspect(it), "Locale 'en-US-u-kn'");
  assert.equal(inspect({ it }), "{ it: Locale 'en-US-u-kn' }");
  assert.equal(String(Object.prototype.toString.call(it)), '[object Locale]');
});

test('what an error keeps', () => {
  const error = new Locale('en').equals && (() => { try { normalize(Buffer.from('en-ä')); } catch (it) { return it; } })();
  const message = "Invalid subtag: 'ä' at 3..5: a script, a region, a variant or an extension may stand here";
  assert.equal(String(error), `LocaleError: ${message}`);
  assert.deepEqual(error.toJSON(), { name: 'LocaleError', message, code: 'InvalidSubtag', text: [101, 110, 45, 195, 164], mode: 'locale',
    part: undefined, start: 3, end: 5, expected: ['a script', 'a region', 'a variant', 'an extension', 'the end'], hint: undefined });
  assert.equal(structuredClone(error).message, message); // (it was asked for)
  assert.deepEqual(structuredClone(error.toJSON()).code, 'InvalidSubtag');
  assert.match(inspect(error), /LocaleError: Invalid subtag: 'ä' at 3\.\.5: .*code: 'InvalidSubtag'/s);
  error.message = 'another';
  assert.deepEqual([error.message, Object.keys(error)], ['another', ['code', 'text', 'mode']]);
  assert.equal(LocaleError.prototype.message, '');
  const frozen = Object.freeze(new LocaleError('InvalidSubtag', 'en-foo', 'locale'));
  assert.equal(frozen.message, frozen.message);
  assert.match(frozen.message, /'foo' at 3\.\.6/);
  const ofPart = (() => { try { return new Locale('en').with({ region: 'GB-posix' }); } catch (it) { return it; } })();
  assert.deepEqual([ofPart.message, ofPart.start, ofPart.end, ofPart.expected, ofPart.hint], ["region: Invalid subtag: 'GB-posix'", 0, 8, [], undefined]);
});

// (a frame costs: so none is kept unless one asks)
test('a refusal that is thrown costs little, and keeps frames if they are wanted', () => {
  const thrown = text => { try { return normalize(text); } catch (error) { return error; } };
  const limit = Error.stackTraceLimit;
  assert.equal(limit, 10); // (node's own: errors that were thrown before left it)
  const said = "LocaleError: The given language subtag is invalid: 'x' at 0..1: a language may stand here";
  assert.equal(String(thrown('x')), said);
  assert.equal(thrown('x').stack, undefined);
  assert.equal(inspect(thrown('x')), `[${said}] {\n  code: 'InvalidLanguage',\n  text: 'x',\n  mode: 'locale'\n}`);
  assert.equal(Error.stackTraceLimit, limit);
  const time = () => {
    let least = Infinity;
    for (let round = 0; round < 100; round++) {
      const start = process.hrtime.bigint();
      for (let i = 0; i < 100; i++) thrown('en-US-foo');
      least = Math.min(least, Number(process.hrtime.bigint() - start) / 100);
    }
    return least;
  };
  time();
  const without = time();
  LocaleError.stackTraceLimit = 10;
  try {
    assert.match(thrown('x').stack, /^LocaleError: The given language subtag is invalid: 'x' at 0\.\.1: a language may stand here\n    at .*locale\.test\.mjs/s);
    const with10 = time();
    assert.ok(without * 2 < with10, `${without} ns without frames, ${with10} with ten`);
  } finally {
    LocaleError.stackTraceLimit = 0;
  }
});

test('bytes that say another length than theirs', () => {
  class Liar extends Uint8Array { get length() { return 2; } }
  const plain = Object.defineProperty(Uint8Array.of(101, 110), 'length', { value: 1 });
  for (const it of [new Liar(5), plain, Object.create(Uint8Array.prototype), Object.setPrototypeOf(new Uint16Array(2), Uint8Array.prototype)])
    for (const call of [normalize, check, parts, tryNormalize]) assert.throws(() => call(it), TypeError);
  class Honest extends Uint8Array {}
  assert.equal(normalize(Honest.of(69, 78)), 'en');
  assert.equal(normalize(Buffer.from('EN')), 'en');
});
