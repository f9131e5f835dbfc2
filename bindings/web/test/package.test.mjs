// The package beside the vectors: normal texts, refusals, order, sameness, parts and places of faults.
import test from 'node:test';
import assert from 'node:assert/strict';
import { MODES, answer, asString, real, rowsOf, texts, wanted, web } from './answers.mjs';

const { Locale, LocaleError, baseNameOf, check, clean, compare, findFault, keywordOf, languageOf, matches, normalize, normalizingEq, parent, parts, partsOfNormal,
  regionOf, scriptOf, tryNormalize, variantsOf, version, wordsOf } = web;
const shown = it => it.toString('latin1');
const isRefused = it => it.startsWith('! ');

for (const mode of MODES) {
  const answers = wanted(mode);

  test(`vectors as bytes, ${mode}`, () => {
    for (const [at, it] of texts.entries()) assert.equal(answer(it, mode), answers[at], shown(it));
  });

  test(`vectors as strings, ${mode}`, () => {
    for (const [at, it] of texts.entries()) {
      const text = asString(it);
      if (text !== null) assert.equal(answer(text, mode), answers[at], text);
    }
  });

  test(`vectors checked, ${mode}`, () => {
    for (const [at, it] of texts.entries()) {
      const code = check(it, mode);
      assert.equal(code === 'Done' ? '' : `! ${wordsOf(code)}`, isRefused(answers[at]) ? answers[at] : '', shown(it));
    }
  });

  test(`a normal text is its own, ${mode}`, () => {
    for (const it of answers.filter(it => !isRefused(it))) assert.equal(normalize(it, mode), it);
  });

  test(`order and sameness of neighbours, ${mode}`, () => {
    for (let at = 0; at + 1 < texts.length; at++) {
      const [a, b] = [texts[at], texts[at + 1]], [x, y] = [answers[at], answers[at + 1]];
      if (isRefused(x)) {
        assert.throws(() => compare(a, b, mode), it => it instanceof LocaleError && `! ${wordsOf(it.code)}` === x && it.text === a);
        assert.throws(() => normalizingEq(a, b, mode), it => `! ${wordsOf(it.code)}` === x);
      } else {
        if (isRefused(y)) assert.throws(() => compare(a, b, mode), it => `! ${wordsOf(it.code)}` === y && it.text === b);
        else assert.equal(compare(a, b, mode), x < y ? -1 : x > y ? 1 : 0);
        assert.equal(normalizingEq(a, b, mode), x === y);
        assert.equal(compare(a, x, mode), 0);
        assert.equal(normalizingEq(x, a, mode), true);
      }
    }
  });

  test(`real lines: order and sameness of neighbours, ${mode}`, () => {
    const good = real.filter(it => check(it, mode) === 'Done');
    assert.ok(good.length > 500, `${good.length} are good`);
    for (let at = 0; at + 1 < good.length; at++) {
      const [x, y] = [normalize(good[at], mode), normalize(good[at + 1], mode)];
      assert.equal(normalize(x, mode), x);
      assert.equal(compare(good[at], good[at + 1], mode), x < y ? -1 : x > y ? 1 : 0);
      assert.equal(normalizingEq(good[at], good[at + 1], mode), x === y);
    }
  });

  test(`the pieces of a normal text are all of it, ${mode}`, () => {
    for (const normal of answers.filter(it => !isRefused(it))) {
      const { pieces } = partsOfNormal(normal);
      assert.equal(pieces.map(it => it.text).join('-'), normal);
      for (const { text, start } of pieces) assert.equal(normal.substr(start, text.length), text);
    }
  });

  test(`the place of a fault: it is a piece, its code is the refusal, and accepted texts have none, ${mode}`, () => {
    for (const [at, it] of texts.entries()) {
      const text = asString(it), fault = findFault(text ?? it, mode);
      if (!isRefused(answers[at])) assert.equal(fault, null);
      else {
        assert.equal(`! ${wordsOf(fault.code)}`, answers[at]);
        assert.ok(fault.message.startsWith(`${wordsOf(fault.code)}: '`) && fault.expected.length > 0, text ?? shown(it));
        const all = text ?? shown(it), starts = [...all.matchAll(/-|$/g)].map(it => it.index);
        assert.ok(fault.start === 0 || all[fault.start - 1] === '-' || fault.start === all.length, all);
        assert.ok(starts.includes(fault.end), all);
      }
    }
  });
}

test('parts', () => {
  const it = parts('EN-latn-us-POSIX-fonipa-t-de-Latn-at-m0-din-u-attr-co-phonebk-ca-islamic-civil-a-foo-bar-x-A-b');
  assert.equal(it.normal, 'en-Latn-US-fonipa-posix-a-foo-bar-t-de-latn-at-m0-din-u-attr-ca-islamic-civil-co-phonebk-x-a-b');
  const { pieces, ...named } = it;
  assert.deepEqual(named, {
    normal: it.normal, language: 'en', script: 'Latn', region: 'US', variants: ['fonipa', 'posix'], attributes: ['attr'],
    keywords: { ca: 'islamic-civil', co: 'phonebk' },
    transform: { language: 'de', script: 'latn', region: 'at', variants: [], fields: { m0: 'din' } },
    others: { a: 'foo-bar' }, private: ['a', 'b'],
  });
  assert.equal(pieces.map(it => it.kind).join(' '), 'language script region variant variant singleton other other singleton '
    + 'language script region field value singleton attribute key value value key value singleton private private');
});

test('places of pieces', () => {
  const shown = (text, mode) => parts(text, mode).pieces.map(({ start, end, of }) => `${start}-${end}${of}`).join(' ');
  assert.equal(shown('EN-us-u-ca-foo-bar'), '0-2 3-5 6-7u 8-10u 11-14u 15-18u');
  assert.equal(shown('en-t-DE-m0-true-x-u'), '0-2 3-4t 5-7t 8-10t 11-15t 16-17x 18-19x');
  assert.equal(shown('und-u-sd-gbeng', 'data'), '0-3 4-6 7-8u 9-11u 12-17u');
  assert.equal(shown('de-1901', 'langid'), '0-2 3-7');
  assert.throws(() => parts('en-u-ca', 'langid'), it => it.code === 'InvalidSubtag' && it.mode === 'langid' && it.start === 3);
  assert.throws(() => parts('en', 'other'), TypeError);
  assert.throws(() => parts('x'.repeat(65536)), it => it.code === 'BeyondLimits');
});

test('refusals', () => {
  assert.throws(() => normalize('en_US'), error => error instanceof LocaleError && error instanceof RangeError && error.name === 'LocaleError'
    && error.code === 'InvalidLanguage' && error.start === 0 && error.end === 5);
  assert.throws(() => normalize('en-US-foo'), error => error.code === 'InvalidSubtag' && error.start === 6 && error.end === 9);
  for (const mode of ['other', 'toString', '', null, {}, true]) assert.throws(() => normalize('en', mode), TypeError);
  for (const text of [7, undefined, null, ['en'], new Uint16Array(2)]) assert.throws(() => normalize(text), TypeError);
  assert.throws(() => compare('en', 'x'), error => error.text === 'x' && error.code === 'InvalidLanguage');
  assert.throws(() => compare('x', 'en'), error => error.text === 'x');
  assert.equal(normalizingEq('en', '?'), false);
  assert.throws(() => normalizingEq('?', 'en'), LocaleError);
  assert.equal(check('en-u-ca-a', 'langid'), 'InvalidSubtag');
  assert.equal(check('ä'), 'InvalidLanguage');
  assert.equal(check('\uD800en'), 'InvalidLanguage');
});

test('limits', () => {
  const pieces = count => ['en', ...Array.from({ length: count - 1 }, (_, at) => `abcd${1000 + at}`)].join('-');
  const many = pieces(66), most = pieces(64); // (the contract lets 65 pieces be beyond, and does not ask it)
  assert.equal(check(most), 'Done');
  assert.equal(normalize(most), most);
  assert.equal(check(many), 'BeyondLimits');
  assert.equal(check(many, 'langid'), 'BeyondLimits');
  const { code, message, start, expected, hint } = tryNormalize(many);
  assert.deepEqual([code, message, start, expected, hint], ['BeyondLimits', 'Beyond the limits', undefined, [], undefined]);
  assert.equal(check(many, 'data'), 'InvalidSubtag');
  assert.throws(() => normalize(many), it => it.code === 'BeyondLimits' && it.start === undefined && it.end === undefined);
  assert.throws(() => compare('en', many), it => it.code === 'BeyondLimits' && it.text === many);
  const fault = findFault(`${many}-!!`);
  assert.deepEqual([fault.code, fault.start, fault.end], ['InvalidSubtag', many.length + 1, many.length + 3]);
  const beyond = tryNormalize(`${many}-!!`);
  assert.deepEqual([beyond.code, beyond.start, beyond.expected, beyond.message], ['BeyondLimits', undefined, [], 'Beyond the limits']);
  assert.equal(check('x'.repeat(65535)), 'InvalidLanguage');
  assert.equal(check('x'.repeat(65536)), 'BeyondLimits');
  assert.equal(check('ä'.repeat(32767)), 'InvalidLanguage');
  assert.equal(check('ä'.repeat(32768)), 'BeyondLimits');
  assert.equal(check(new Uint8Array(65536)), 'BeyondLimits');
  assert.equal(normalize('EN'), 'en');
});

// (the module has 64 KB of stack, in which the numbers of so many variants have to find room)
test('what may stand behind as many variants as there is room for', () => {
  const variants = Array.from({ length: 7000 }, (_, at) => `wor${(at * 7919 % 1048576).toString(16).padStart(5, '0')}`);
  const fault = findFault(`en-${variants.join('-')}-!`, 'langid');
  assert.deepEqual([fault.start, fault.expected, fault.hint], [63003, ['a variant', 'the end'], undefined]);
});

test('places of faults', () => {
  const at = (text, mode) => {
    const { start, end, code } = findFault(text, mode);
    return [start, end, code];
  };
  assert.deepEqual(at('en_US'), [0, 5, 'InvalidLanguage']);
  assert.deepEqual(at(''), [0, 0, 'InvalidLanguage']);
  assert.deepEqual(at('en-US-foo'), [6, 9, 'InvalidSubtag']);
  assert.deepEqual(at('en-US-foo-bar'), [6, 9, 'InvalidSubtag']);
  assert.deepEqual(at('en-'), [3, 3, 'InvalidSubtag']);
  assert.deepEqual(at('en--US'), [3, 3, 'InvalidSubtag']);
  assert.deepEqual(at('en-u'), [4, 4, 'InvalidExtension']);
  assert.deepEqual(at('en-t-m0'), [7, 7, 'InvalidExtension']);
  assert.deepEqual(at('en-u-ca-foo-u-bar'), [12, 13, 'DuplicatedExtension']);
  assert.deepEqual(at('en-posix-posix'), [9, 14, 'InvalidSubtag']);
  assert.deepEqual(at('en-u-ca-foo', 'langid'), [3, 4, 'InvalidSubtag']);
  assert.deepEqual(at('en-x-toolongprivate'), [5, 19, 'InvalidExtension']);
  assert.deepEqual(at('en-u-sd-g!', 'data').slice(0, 2), [8, 10]);
  assert.deepEqual(at('en-u-foo-bar', 'data').slice(0, 2), [5, 8]);
  assert.deepEqual(at('en-ä-US'), [3, 4, 'InvalidSubtag']); // (in units of the string)
  assert.deepEqual(at(Buffer.from('en-ä-US')), [3, 5, 'InvalidSubtag']); // (in bytes)
  assert.deepEqual(at('en-\u{1F600}€-US'), [3, 6, 'InvalidSubtag']);
  assert.deepEqual(at('en-\uD800-US'), [3, 4, 'InvalidSubtag']); // (half of a pair is read as U+FFFD)
  assert.equal(findFault('en-US'), null);
});

// (the rows of the library's own tests, and what each of the three tells of them)
for (const mode of MODES) {
  test(`hints, ${mode}`, () => {
    const rows = rowsOf(`hint-${mode}`);
    assert.ok(rows.length > 0);
    for (const [text, words] of rows) {
      const hint = words === 'none' ? undefined : words, refused = tryNormalize(text, mode);
      if (refused.normal === undefined) {
        assert.equal(refused.hint, hint, text);
        assert.equal(findFault(text, mode).hint, hint, text);
        assert.throws(() => normalize(text, mode), it => it.hint === hint && it.message.endsWith(hint ?? ' may stand here'));
      } else assert.equal(hint, undefined, text);
    }
  });

  test(`what may stand at the place of a fault, ${mode}`, () => {
    let count = 0;
    for (const [text, place, answer] of rowsOf(`expected-${mode}`)) {
      const fault = findFault(text, mode);
      if (fault === null || fault.start !== Number(place)) continue;
      count++;
      const [bits, ...words] = answer.split(' '), list = fault.expected.filter(it => it !== 'the end');
      const joined = list.length < 2 ? list.join('') : `${list.slice(0, -1).join(', ')} or ${list.at(-1)}`;
      assert.equal(joined, words.join(' '), text);
      assert.equal(fault.expected.includes('the end'), (bits >> 12 & 1) === 1, text);
      assert.ok(fault.message.includes(`: ${words.join(' ')} may stand here`), fault.message);
      assert.throws(() => normalize(text, mode), it => it.message === fault.message && it.message === tryNormalize(text, mode).message
        && JSON.stringify(it.expected) === JSON.stringify(fault.expected));
    }
    assert.ok(count > 1, `${count} rows`);
  });

  // Each piece of an accepted text may stand after those before it, so its kind is expected there.
  test(`what stands in accepted texts is expected, ${mode}`, () => {
    const named = { language: 'a language', script: 'a script', region: 'a region', variant: 'a variant', singleton: 'an extension', attribute: 'an attribute',
      key: 'a key', value: 'a value', field: 'a key of a field', other: 'a subtag of the extension', private: 'a private subtag' };
    const seen = new Set();
    for (const text of [...texts, ...real].map(asString)) {
      const { normal } = text === null ? {} : tryNormalize(text, mode);
      if (normal === undefined) continue;
      for (const { start, kind, of } of partsOfNormal(normal).pieces) {
        const begins = normal.slice(0, start);
        if (seen.has(begins)) continue;
        seen.add(begins);
        const fault = findFault(`${begins}!`, mode), words = kind === 'value' && of === 't' ? 'a value of a field' : named[kind];
        assert.equal(fault.start, start, begins);
        assert.ok(fault.expected.includes(words), `${words} after ${begins}`);
      }
    }
    assert.ok(seen.size > 200, `${seen.size} places`);
  });
}

test('messages', () => {
  const said = (text, mode) => tryNormalize(text, mode).message;
  assert.equal(said('en-Latn-foo'), "Invalid subtag: 'foo' at 8..11: a region, a variant or an extension may stand here");
  assert.equal(said('en-foo'), "Invalid subtag: 'foo' at 3..6: a script, a region, a variant or an extension may stand here");
  assert.equal(said('en_US'), "The given language subtag is invalid: 'en_US' at 0..5: a language may stand here; use hyphens in place of underscores");
  assert.equal(said('en-u'), "Invalid extension: '' at 4..4: an attribute or a key may stand here");
  assert.equal(said('en-US-u', 'langid'), "Invalid subtag: 'u' at 6..7: a variant may stand here");
  assert.equal(said('en-u-ca-roc-u'), "Duplicated extension: 'u' at 12..13: an extension, a key or a value may stand here");
  assert.equal(said('en-ä-US'), "Invalid subtag: 'ä' at 3..4: a script, a region, a variant or an extension may stand here");
  assert.equal(said(Buffer.from('en-ä-US')), "Invalid subtag: 'ä' at 3..5: a script, a region, a variant or an extension may stand here");
  assert.equal(said(`en-${'x'.repeat(100)}`).slice(0, 100), `Invalid subtag: '${'x'.repeat(64)}'... at 3..103: a s`);
  assert.equal(said(`en-${'x'.repeat(64)}`).slice(0, 90), `Invalid subtag: '${'x'.repeat(64)}' at 3..6`);
  assert.ok(said('en-a\n\u0007b').includes(": 'a\\n\\u0007b' at 3..7: "));
  const { normal, code, message, start, end, expected, hint } = tryNormalize('en_US');
  assert.deepEqual(JSON.parse(JSON.stringify(tryNormalize('en_US'))), { code, message, start, end, expected, hint });
  assert.deepEqual([normal, code, start, end, expected, hint], [undefined, 'InvalidLanguage', 0, 5, ['a language'], 'use hyphens in place of underscores']);
});

// (the rows of the library's own tests: RFC 4647, section 3.3.2, and what it says of `und`; texts that are their own normal text)
test('ranges', () => {
  const isNormal = it => tryNormalize(it).normal === it;
  const rows = rowsOf('matches').filter(([text, range]) => isNormal(text) && isNormal(range));
  assert.ok(rows.length > 15, `${rows.length} rows`);
  for (const [text, range, wanted] of rows) assert.equal(matches(text, range), wanted === 'true', `${text} ${range}`);
  assert.equal(matches('ZH-hant-tw', 'zh-TW'), true);
  assert.equal(matches(new Locale('de-US'), Buffer.from('UND-us')), true);
  assert.equal(matches('en-x-us', 'en-US'), false);
  assert.throws(() => matches('e', 'x'), it => it.text === 'e' && it.code === 'InvalidLanguage');
  assert.throws(() => matches('en', 'x'), it => it.text === 'x' && it.mode === 'locale');
  assert.throws(() => matches('en', 'en-u'), it => it.text === 'en-u' && it.code === 'InvalidExtension');
  assert.throws(() => matches('en', 'x'.repeat(65536)), it => it.code === 'BeyondLimits');
  assert.throws(() => matches('en', 7), TypeError);
  for (const text of real.filter(it => check(it) === 'Done').slice(0, 300)) {
    assert.equal(matches(text, 'und'), true);
    assert.equal(matches(text, text), true);
    const above = parent(text);
    if (above !== null) assert.equal(matches(text, above), true, String(text));
  }
});

// (what include/icu_locale.h says of these calls)
test('parts of texts', () => {
  const text = 'EN-latn-us-POSIX-macos-u-KN-ca-Islamic-civil';
  assert.deepEqual([languageOf(text), scriptOf(text), regionOf(text), variantsOf(text), baseNameOf(text)],
    ['en', 'Latn', 'US', 'macos-posix', 'en-Latn-US-macos-posix']);
  assert.deepEqual(['ca', 'CA', 'kn', 'nu', 'foo', ''].map(it => keywordOf(text, it)), ['islamic-civil', 'islamic-civil', '', undefined, undefined, undefined]);
  assert.deepEqual([languageOf('und'), scriptOf('und'), regionOf('und'), variantsOf('und'), baseNameOf('und')], ['und', undefined, undefined, undefined, 'und']);
  assert.deepEqual([regionOf('en-u-sd-gbeng', 'data'), keywordOf('en-u-sd-gbeng', 'sd', 'data')], ['GB', 'gbeng']);
  assert.equal(keywordOf('en-u-ca-roc', Buffer.from('ca')), 'roc');
  assert.equal(keywordOf('en-u-ca-roc', 'c'.repeat(70000)), undefined);
  assert.deepEqual(['EN-us', 'de'].map(regionOf), ['US', undefined]);
  for (const call of [baseNameOf, languageOf, scriptOf, regionOf, variantsOf, parent]) {
    assert.throws(() => call('en-'), it => it instanceof LocaleError && it.code === 'InvalidSubtag' && it.text === 'en-');
    assert.throws(() => call('en-u-ca', 'langid'), it => it.mode === 'langid');
    assert.throws(() => call('x'.repeat(65536)), it => it.code === 'BeyondLimits');
    assert.throws(() => call('en', 'other'), TypeError);
  }
  assert.throws(() => keywordOf('en-', 'ca'), LocaleError);
  assert.throws(() => keywordOf('en', 7), TypeError);
  const chain = text => text === null ? [] : [text, ...chain(parent(text))];
  assert.deepEqual(chain('en-Latn-US-u-ca-buddhist'), ['en-Latn-US-u-ca-buddhist', 'en-Latn-US', 'en-Latn', 'en', 'und']);
  assert.deepEqual([parent('EN-macos-POSIX'), parent('und-US'), parent('und-x-a'), parent('und'), parent('en-u-sd-gbeng', 'data')],
    ['en-macos', 'und', 'und', null, 'en-GB']);
});

// What the calls for parts tell is what the pieces are.
for (const mode of MODES) {
  test(`parts of all accepted texts, ${mode}`, () => {
    let count = 0;
    for (const text of [...texts, ...real]) {
      if (check(text, mode) !== 'Done') continue;
      count++;
      const { language, script, region, variants, keywords } = parts(text, mode);
      assert.equal(baseNameOf(text, mode), [language, script, region, ...variants].filter(Boolean).join('-'), shown(text));
      assert.deepEqual([languageOf(text, mode), scriptOf(text, mode) ?? '', regionOf(text, mode) ?? '', variantsOf(text, mode) ?? ''],
        [language, script, region, variants.join('-')]);
      for (const [key, value] of Object.entries(keywords)) assert.equal(keywordOf(text, key, mode), value);
      assert.equal(keywordOf(text, 'zz', mode), keywords.zz);
    }
    assert.ok(count > 500, `${count} are accepted`);
  });
}

// (the cases that the page of the crate iloc_cleaning says)
test('cleaning', () => {
  const cases = [
    [' en-US ', 'en-US'], ['\t en\t', 'en'], ['en_US', 'en-US'], ['en_US\r', 'en-US'], ['en_US \r', 'en-US'], ['en_US\r ', 'en-US\r'], ['en\r\r', 'en\r'],
    ['en_US.UTF-8', 'en-US'], ['de_DE.UTF-8', 'de-DE'], ['de_DE@euro', 'de-DE'], ['de_DE.ISO-8859-15@euro', 'de-DE'], ['sr_RS@latin', 'sr-Latn-RS'],
    ['sr_RS.UTF-8@latin', 'sr-Latn-RS'], ['sr@latin', 'sr-Latn'], ['uz_UZ@cyrillic', 'uz-Cyrl-UZ'], ['sd_IN@devanagari', 'sd-Deva-IN'],
    ['ca_ES@valencia', 'ca-ES-valencia'], ['ca_ES.UTF-8@valencia', 'ca-ES-valencia'], ['aa_ER@saaho', 'aa-ER-saaho'], ['de_DE@foo', 'de-DE@foo'],
    ['de_DE@phonebook', 'de-DE@phonebook'], ['de_DE.UTF-8@foo_bar', 'de-DE@foo_bar'], ['tt_RU@iqtelif', 'tt-RU@iqtelif'], ['de_DE@LATIN', 'de-DE@LATIN'],
    ['de@a.b', 'de@a.b'], ['de@latin.UTF-8', 'de@latin.UTF-8'], ['en US', 'en US'], ['C', 'C'], ['POSIX', 'POSIX'], ['C.UTF-8', 'C'], ['', ''], ['\r', ''],
    ['.', ''], ['@', '@'], ['_', '-'], ['@latin', '-Latn'], ['en-x_y', 'en-x-y'], ['\uFEFFen', '\uFEFFen'], ['a\u00A0', 'a\u00A0'], ['de@toString', 'de@toString'],
  ];
  for (const [line, wanted] of cases) {
    assert.equal(clean(line), wanted, JSON.stringify(line));
    assert.deepEqual(Buffer.from(clean(Buffer.from(line))), Buffer.from(wanted));
  }
  assert.deepEqual([...clean(Uint8Array.of(32, 101, 255, 95))], [101, 255, 45]);
  const kept = clean(Buffer.from('de_DE'));
  assert.equal(clean('sr_RS@latin'), 'sr-Latn-RS');
  assert.equal(String.fromCharCode(...kept), 'de-DE');
  assert.equal(clean(`${'_'.repeat(65535)}`), '-'.repeat(65535));
  assert.throws(() => clean('_'.repeat(65536)), it => it.code === 'BeyondLimits');
  assert.throws(() => clean(7), TypeError);
  assert.equal(normalize(clean('sr_RS.UTF-8@latin')), 'sr-Latn-RS');
});

test('a locale that does not change', () => {
  const it = new Locale('EN-latn-us-posix-u-kn-ca-Buddhist-x-A');
  assert.equal(`${it}`, 'en-Latn-US-posix-u-ca-buddhist-kn-x-a');
  assert.equal(JSON.stringify({ it }), '{"it":"en-Latn-US-posix-u-ca-buddhist-kn-x-a"}');
  assert.deepEqual([it.language, it.script, it.region, it.variants, it.baseName], ['en', 'Latn', 'US', 'posix', 'en-Latn-US-posix']);
  assert.deepEqual([it.calendar, it.numeric, it.collation, it.private, it.mode], ['buddhist', true, undefined, ['a'], 'locale']);
  for (const name of ['language', 'other', 'parts']) assert.throws(() => { it[name] = 'de'; }, TypeError);
  assert.throws(() => { it.keywords.ca = 'iso8601'; }, TypeError);
  assert.throws(() => it.parts.pieces.push(1), TypeError);
  assert.equal(it.equals('en-latn-US-POSIX-u-ca-buddhist-kn-true-x-a'), true);
  assert.equal(it.equals(new Locale(it)), true);
  assert.equal(it.equals('en'), false);
  assert.equal(it.equals('?'), false);
  assert.equal(new Locale('en').equals(new Locale('en', 'data')), false);
  assert.equal(new Locale('en', 'langid').equals(new Locale('EN', 'langid')), true);
  assert.throws(() => new Locale('en-'), LocaleError);
  assert.throws(() => new Locale('en-u-ca-foo', 'langid'), LocaleError);
  assert.equal(String(new Locale('en-u-sd-gbeng', 'data')), 'en-GB-u-sd-gbeng');
  assert.deepEqual([new Locale('und').language, new Locale('und').script, new Locale('und').region], ['und', undefined, undefined]);
});

test('the names of Intl.Locale say the same where the texts are the same', () => {
  const names = ['language', 'script', 'region', 'baseName', 'calendar', 'caseFirst', 'collation', 'hourCycle', 'numberingSystem', 'numeric'];
  let same = 0;
  for (const text of [...texts, ...real].map(asString)) {
    let theirs;
    try { theirs = new Intl.Locale(text); } catch { continue; }
    if (check(text) !== 'Done' || normalize(text) !== String(theirs)) continue;
    same++;
    const ours = new Locale(text);
    for (const name of names) {
      // (V8 calls the language of `und` undefined, and the value of a key without one `true`; it counts `va` to the base name)
      if ((name === 'language' && ours[name] === 'und') || ours[name] === '' || (name === 'baseName' && 'va' in ours.keywords)) continue;
      assert.equal(ours[name], theirs[name], `${name} of ${text}`);
    }
  }
  assert.ok(same > 1000, `${same} are the same`);
});

test('words and version', () => {
  assert.equal(wordsOf('Done'), 'Done');
  assert.equal(wordsOf('DuplicatedExtension'), 'Duplicated extension');
  assert.equal(version, 1);
});
