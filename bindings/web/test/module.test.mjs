// The module's calls at their edges, and with offsets and lengths outside the memory.
import test from 'node:test';
import assert from 'node:assert/strict';
import { MODES, PACKAGE, chance, module, rowsOf, web } from './answers.mjs';

const { exports: calls } = await WebAssembly.instantiate(await WebAssembly.compile(module.bytes), {});
const base = Number(calls.__heap_base.value), all = new Uint8Array(calls.memory.buffer), numbers = new DataView(calls.memory.buffer);
const [text, other, room, one, two, number] = [0, 1, 2, 3, 4, 5].map(i => BigInt(base + 1024 * i));
const put = (it, at = text) => {
  all.fill(46, Number(at), Number(at) + 1024);
  all.set(Buffer.from(it), Number(at));
  return BigInt(it.length);
};
const needed = () => Number(numbers.getBigUint64(Number(number), true));
const read = at => Buffer.from(all.subarray(Number(at), Number(at) + 32)).toString().replace(/\.*$/, '');
function normalize(mode, it, { buffer = 1024n, behind = 16n, place = 1024n } = {}) {
  const length = put(it);
  all.fill(46, Number(one), Number(one) + 1024);
  const status = calls.web_normalize(mode, text, length + behind, length, room, place, one, buffer, number);
  return [status, needed(), read(one)];
}

test('no import, and the exports that are wanted', () => {
  const made = new WebAssembly.Module(module.bytes);
  assert.deepEqual(WebAssembly.Module.imports(made), []);
  assert.deepEqual(WebAssembly.Module.exports(made).map(it => it.name).sort(), ['__heap_base', 'memory', 'web_base_name_of', 'web_check', 'web_clean',
    'web_compare', 'web_expected', 'web_find_fault', 'web_hint', 'web_keyword_of', 'web_kinds', 'web_language_of', 'web_matches', 'web_normalize',
    'web_normalizing_eq', 'web_parent', 'web_parts', 'web_region_of', 'web_script_of', 'web_variants_of', 'web_version', 'web_words']);
});

test('buffers', () => {
  assert.deepEqual(normalize(1, 'EN-us'), [0, 5, 'en-US']);
  assert.deepEqual(normalize(1, 'EN-us', { buffer: 5n }), [0, 5, 'en-US']);
  assert.deepEqual(normalize(1, 'EN-us', { buffer: 4n }), [6, 5, '']);
  assert.deepEqual(normalize(1, 'EN-us-POSIX', { buffer: 10n }), [6, 11, '']);
  assert.deepEqual(normalize(2, 'und-u-sd-usca', { buffer: 15n }), [6, 16, '']);
  assert.deepEqual(normalize(2, 'und-u-sd-usca', { buffer: 16n }), [0, 16, 'und-US-u-sd-usca']);
  assert.deepEqual(normalize(1, 'EN-us', { buffer: 0n }), [6, 5, '']);
});

test('windows that end where the text ends, or before', () => {
  for (const behind of [0n, 1n, 15n]) {
    for (const mode of [0, 1, 2]) assert.deepEqual(normalize(mode, 'EN-us', { behind }), [0, 5, 'en-US']);
  }
  put('EN-us');
  for (const mode of [0, 1, 2]) {
    assert.equal(calls.web_check(mode, text, 2n, 2n), 0);
    assert.equal(calls.web_check(mode, text, 2n, 5n), 0); // (all of the window, as it is shorter: `EN`)
    assert.equal(calls.web_check(mode, text, 2n, (1n << 64n) - 1n), 0);
    assert.equal(calls.web_check(mode, text, 3n, 1n << 63n), mode === 2 ? calls.web_check(2, text, 3n, 3n) : 2); // `EN-`
  }
});

test('rooms: sixteen bytes more than the text, or nothing is written', () => {
  for (const mode of [0, 1, 2]) {
    assert.deepEqual(normalize(mode, 'EN-us', { place: 21n }), [0, 5, 'en-US']);
    for (const place of [0n, 5n, 20n]) assert.deepEqual(normalize(mode, 'EN-us', { place }), [9, 0, '']);
  }
});

test('numbers that are none', () => {
  assert.deepEqual(normalize(3, 'en'), [7, 0, '']);
  assert.equal(calls.web_check(4294967295 | 0, text, 18n, 2n), 7);
  assert.equal(calls.web_words(9, one, 1024n, number), 7);
  assert.equal(needed(), 0);
  assert.equal(calls.web_words(6, one, 15n, number), 6);
  assert.equal(needed(), 16);
  assert.equal(calls.web_words(6, one, 16n, number), 0);
  assert.equal(read(one).slice(0, 16), 'Buffer too small');
});

// (a row is where a piece begins, where it ends, and its kind: 0 a language, 2 a region, 3 a variant, 4 a singleton, 6 a key, 7 a value)
test('tables of parts', () => {
  const parts = (mode, it, { place = 1024n, table = 64n } = {}) => {
    const length = put(it);
    all.fill(46, Number(one), Number(one) + 1024);
    const status = calls.web_parts(mode, text, length + 16n, length, room, place, number, one, table, number + 8n);
    const [end, count] = [0, 8].map(more => Number(numbers.getBigUint64(Number(number) + more, true)));
    const rows = Array.from({ length: all[Number(one)] === 46 ? 0 : count }, (_, at) => Number(numbers.getBigUint64(Number(one) + 8 * at, true)));
    return [status, Buffer.from(all.subarray(Number(room), Number(room) + end)).toString(), count, rows];
  };
  const rows = [0, 2, 0, 3, 5, 2, 6, 7, 4, 8, 10, 6];
  assert.deepEqual(parts(1, 'EN-us-u-KN-true'), [0, 'en-US-u-kn', 12, rows]);
  assert.deepEqual(parts(1, 'EN-us-u-KN-true', { table: 12n }), [0, 'en-US-u-kn', 12, rows]);
  for (const table of [0n, 11n]) assert.deepEqual(parts(1, 'EN-us-u-KN-true', { table }), [6, 'en-US-u-kn', 12, []]);
  assert.deepEqual(parts(1, 'EN-us-u-KN', { place: 26n }), [0, 'en-US-u-kn', 12, rows]);
  assert.deepEqual(parts(1, 'EN-us-u-KN', { place: 25n }), [9, '', 0, []]);
  assert.deepEqual(parts(0, 'DE-1901'), [0, 'de-1901', 6, [0, 2, 0, 3, 7, 3]]);
  assert.deepEqual(parts(2, 'und-u-sd-usca'), [0, 'und-US-u-sd-usca', 15, [0, 3, 0, 4, 6, 2, 7, 8, 4, 9, 11, 6, 12, 16, 7]]);
  assert.deepEqual(parts(0, 'en-u-kn'), [2, '', 0, []]);
  assert.deepEqual(parts(1, 'x'), [1, '', 0, []]);
  assert.deepEqual(parts(3, 'en'), [7, '', 0, []]);
});

test('two texts', () => {
  const both = (call, mode, a, b, first = 1024n, second = 1024n) => {
    const length = put(a), more = put(b, other);
    numbers.setInt8(Number(number), 77);
    return [call(mode, text, length + 16n, length, other, more + 16n, more, one, first, two, second, number), numbers.getInt8(Number(number))];
  };
  const { web_compare, web_normalizing_eq } = calls;
  assert.deepEqual(both(web_compare, 1, 'en', 'DE'), [0, 1]);
  assert.deepEqual(both(web_compare, 1, 'DE', 'en'), [0, -1]);
  assert.deepEqual(both(web_compare, 1, 'en', 'en-US', 1024n, 20n), [9, 77]);
  assert.deepEqual(both(web_compare, 1, 'en', 'en-US', 17n), [9, 77]);
  assert.deepEqual(both(web_compare, 1, 'en', 'en-US', 18n, 21n), [0, -1]);
  assert.deepEqual(both(web_compare, 1, 'en', 'x'), [1, 77]);
  assert.deepEqual(both(web_compare, 9, 'en', 'x'), [7, 77]);
  assert.deepEqual(both(web_normalizing_eq, 1, 'en-u-kn-true', 'EN-u-kn'), [0, 1]);
  assert.deepEqual(both(web_normalizing_eq, 1, 'en', 'x'), [0, 0]);
  assert.deepEqual(both(web_normalizing_eq, 1, 'x', 'en'), [1, 77]);
  assert.deepEqual(both(web_normalizing_eq, 1, 'en-t-de-1901-fonipa', 'EN-t-de-fonipa-1901'), [0, 1]);
  const matches = (_, ...words) => calls.web_matches(...words);
  assert.deepEqual(both(matches, 1, 'ZH-hant-tw', 'zh-TW'), [0, 1]);
  assert.deepEqual(both(matches, 1, 'zh-TW', 'zh-hant-TW'), [0, 0]);
  assert.deepEqual(both(matches, 1, 'en', 'en', 17n), [9, 77]);
  assert.deepEqual(both(matches, 1, 'en', 'en', 18n, 17n), [9, 77]);
  assert.deepEqual(both(matches, 1, 'en', 'en-u'), [3, 77]);
});

// (the rows of the library's own tests, at every place and not at a fault alone)
test('what may stand at a place', () => {
  const kinds = (mode, it, place) => {
    const length = put(it);
    numbers.setBigUint64(Number(number), 0x7777777777777777n, true);
    return [calls.web_expected(mode, text, length + 16n, length, BigInt(place), number), numbers.getUint16(Number(number), true), numbers.getUint16(Number(number) + 2, true)];
  };
  const words = (set, room = 1024n) => {
    all.fill(46, Number(one), Number(one) + 1024);
    return [calls.web_kinds(set, one, room, number), needed(), Buffer.from(all.subarray(Number(one), Number(one) + 120)).toString().replace(/\.*$/, '')];
  };
  let count = 0;
  MODES.forEach((mode, at) => {
    for (const [it, place, answer] of rowsOf(`expected-${mode}`)) {
      const [bits, ...said] = answer.split(' '), wanted = said.join(' ');
      assert.deepEqual(kinds(at, it, place), [0, Number(bits), 0x7777], `${it} ${place}`);
      assert.deepEqual(words(Number(bits)), [0, wanted.length, wanted]);
      count++;
    }
  });
  assert.ok(count > 30, `${count} rows`);
  assert.deepEqual(kinds(3, 'en-foo', 3), [7, 0x7777, 0x7777]);
  assert.deepEqual(kinds(1, 'en-foo', 1 << 30), [0, 0, 0x7777]);
  for (const [at, , wanted] of rowsOf('kind-number').map(([at, answer]) => [at, ...answer.split(/ (.*)/)]).filter(it => it[2]))
    assert.deepEqual(words(1 << at), [0, wanted.length, wanted]);
  assert.deepEqual(words(6, 19n), [6, 20, '']);
  assert.deepEqual(words(6, 20n), [0, 20, 'a script or a region'.slice(0, 20)]);
  assert.deepEqual(words(1 << 15), [0, 7, 'nothing']);
  assert.deepEqual([words(1 << 16), words(-1)], [[7, 0, ''], [7, 0, '']]);
});

test('parts, hints and cleaning: buffers, rooms and numbers', () => {
  const tell = (name, mode, it, { place = 1024n, buffer = 1024n, keyed = [] } = {}) => {
    const length = put(it);
    all.fill(46, Number(one), Number(one) + 1024);
    const status = calls[name](...mode, text, length + 16n, length, ...keyed, ...(name === 'web_hint' ? [] : [room, place]), one, buffer, number);
    return [status, needed(), read(one)];
  };
  const key = it => [other, put(it, other)];
  assert.deepEqual(tell('web_base_name_of', [1], 'EN-us-u-kn'), [0, 5, 'en-US']);
  assert.deepEqual(tell('web_base_name_of', [1], 'EN-us-u-kn', { buffer: 4n }), [6, 5, '']);
  assert.deepEqual(tell('web_base_name_of', [1], 'EN-us-u-kn', { buffer: 5n, place: 26n }), [0, 5, 'en-US']);
  assert.deepEqual(tell('web_base_name_of', [1], 'EN-us-u-kn', { place: 25n }), [9, 0, '']);
  assert.deepEqual(tell('web_language_of', [0], 'EN-us'), [0, 2, 'en']);
  assert.deepEqual(tell('web_script_of', [0], 'EN-us'), [0, 0, '']);
  assert.deepEqual(tell('web_region_of', [2], 'EN-u-sd-gbeng'), [0, 2, 'GB']);
  assert.deepEqual(tell('web_variants_of', [1], 'de-posix-1901'), [0, 10, '1901-posix']);
  assert.deepEqual(tell('web_keyword_of', [1], 'en-u-ca-roc', { keyed: key('CA') }), [0, 3, 'roc']);
  assert.deepEqual(tell('web_keyword_of', [1], 'en-u-ca-roc', { keyed: key('nu') }), [8, 0, '']);
  assert.deepEqual(tell('web_parent', [1], 'en'), [0, 3, 'und']);
  assert.deepEqual(tell('web_parent', [1], 'und'), [8, 0, '']);
  for (const name of ['web_base_name_of', 'web_language_of', 'web_script_of', 'web_region_of', 'web_variants_of', 'web_parent']) {
    assert.deepEqual([tell(name, [3], 'en'), tell(name, [1], 'en-'), tell(name, [0], 'en-u-kn')], [[7, 0, ''], [2, 0, ''], [2, 0, '']]);
  }
  assert.deepEqual(tell('web_hint', [1], 'en_US', { buffer: 35n }), [0, 35, 'use hyphens in place of undersco'.slice(0, 32)]);
  assert.deepEqual(tell('web_hint', [1], 'en_US', { buffer: 34n }), [6, 35, '']);
  assert.deepEqual([tell('web_hint', [1], 'en-US'), tell('web_hint', [3], 'en_US')], [[8, 0, ''], [7, 0, '']]);
  assert.deepEqual(tell('web_clean', [], 'sr_RS@latin', { place: 10n, buffer: 10n }), [0, 10, 'sr-Latn-RS']);
  assert.deepEqual(tell('web_clean', [], 'sr_RS@latin', { place: 9n }), [9, 0, '']);
  assert.deepEqual(tell('web_clean', [], 'sr_RS@latin', { buffer: 9n }), [6, 10, '']);
});

// Offsets and lengths of every kind, many of them outside the memory. The engine stops the call, and the package says so by an
// error; or it ends with a number that there is. The next call answers as ever. What a call may write is its caller's to say,
// so the module's own memory below the base is put back.
test('offsets and lengths outside the memory', async () => {
  const { ask, memoryOf } = await import(`${PACKAGE}/calls.mjs`);
  const next = chance(11), size = all.length, below = memoryOf().slice(0, base);
  const edges = [0, 1, 2, 15, 16, 17, 21, base, base + 64, size - 1, size, size + 1, size - 16, 2 ** 31, 2 ** 32 - 1, 2 ** 32, 2 ** 40].map(BigInt);
  edges.push((1n << 63n) - 1n, 1n << 63n, (1n << 64n) - 1n, (1n << 64n) - 16n, (1n << 64n) - BigInt(size));
  const place = () => (next(2) ? edges[next(edges.length)] : BigInt(base + next(4096)));
  const counts = { web_normalize: 8, web_check: 3, web_find_fault: 5, web_compare: 11, web_normalizing_eq: 11, web_parts: 9, web_words: 3, web_expected: 5,
    web_kinds: 3, web_hint: 6, web_base_name_of: 8, web_keyword_of: 10, web_parent: 8 };
  let stopped = 0, ended = 0;
  for (let round = 0; round < 4000; round++) {
    const names = Object.keys(counts), name = names[next(names.length)];
    const words = Array.from({ length: counts[name] }, () => (next(3) ? place() : BigInt(next(64))));
    try {
      const status = ask(name, next(4), ...words);
      assert.ok(status >= 0 && status <= 9, `${name} ends with ${status}`);
      ended++;
    } catch (error) {
      assert.ok(error.cause instanceof WebAssembly.RuntimeError, `${name}: ${error.cause ?? error}`);
      stopped++;
    }
    memoryOf().set(below);
    assert.equal(web.normalize('EN-us-u-kn-true'), 'en-US-u-kn');
    assert.equal(web.check('en-'), 'InvalidSubtag');
  }
  assert.ok(stopped > 100 && ended > 100, `${stopped} stopped, ${ended} ended`);
});
