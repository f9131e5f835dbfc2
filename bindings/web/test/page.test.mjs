// The words of the page.
import test from 'node:test';
import assert from 'node:assert/strict';
import { pathToFileURL } from 'node:url';

// (PAGE is the folder of the page's scripts, as with a wrong edit in them)
const { KEYS, KINDS } = await import(process.env.PAGE ? pathToFileURL(`${process.env.PAGE}/words.mjs`) : '../page/words.mjs');

test('each kind and key has words', () => {
  const kinds = ['language', 'script', 'region', 'variant', 'singleton', 'attribute', 'key', 'value', 'field', 'other', 'private'];
  assert.deepEqual(Object.keys(KINDS).sort(), kinds.sort());
  for (const it of [...Object.values(KINDS).flat(), ...Object.values(KEYS)]) assert.ok(typeof it === 'string' && it.length >= 3);
});
