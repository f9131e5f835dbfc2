// What the tests share: the vectors, and the package that PACKAGE names.
import { readFileSync } from 'node:fs';
import { pathToFileURL } from 'node:url';

export const PACKAGE = process.env.PACKAGE;
if (!PACKAGE) throw new Error('PACKAGE is to name the folder of the package, as bindings/web/try does');
const TOP = process.env.TOP ?? new URL('../../..', import.meta.url).pathname;

// (ENTRY is the script that is tried, as node.mjs)
export const web = await import(pathToFileURL(`${PACKAGE}/${process.env.ENTRY ?? 'index.mjs'}`));
export const module = await import(pathToFileURL(`${PACKAGE}/module.mjs`));
export const MODES = ['langid', 'locale', 'data'];

// The lines of a file, each as its bytes.
function linesOf(path) {
  const bytes = readFileSync(`${TOP}/${path}`), found = [];
  for (let at = 0, end; at < bytes.length; at = end + 1) {
    end = bytes.indexOf(10, at);
    if (end < 0) end = bytes.length;
    found.push(bytes.subarray(at, end));
  }
  return found;
}

export const texts = linesOf('vectors/texts.in');
export const real = linesOf('vectors/real.in');

/** What is wanted of each text: its normal text, or `! ` and the words of the refusal. */
export const wanted = mode => linesOf(`vectors/${mode}.out`).map(it => it.toString('latin1'));

/** The bytes as a string, or null if they are no UTF-8. */
export function asString(bytes) {
  const text = bytes.toString('utf8');
  return Buffer.from(text, 'utf8').equals(bytes) ? text : null;
}

/** What the package answers of a text, as the vectors write it. */
export function answer(text, mode) {
  const it = web.tryNormalize(text, mode);
  return it.normal ?? `! ${web.wordsOf(it.code)}`;
}

/** The rows of a call in the library's own table of tests (crates/test_word_rows): what is asked, and what is wanted. */
export function rowsOf(call) {
  const [asked, answers] = ['stdin', 'stdout'].map(it => linesOf(`crates/test_word_rows/${it}`).map(line => line.toString()));
  const plain = it => it.replaceAll('\\xEF\\xBB\\xBF', '\uFEFF');
  return asked.flatMap((line, at) => line.startsWith(`${call}\t`) ? [[...plain(line).split('\t').slice(1), answers[at]]] : []);
}

/** A number from 0 up to, and without, a bound: the same each time. */
export function chance(seed) {
  let state = seed >>> 0;
  return bound => {
    state = (Math.imul(state, 1664525) + 1013904223) >>> 0;
    return Math.floor((state / 2 ** 32) * bound);
  };
}
