// What tools/measure_growth asks of the package that PACKAGE names: from standard input, as JSON, calls with their modes and two texts
// each. It prints the milliseconds of CPU time of each, the least of some rounds: on a machine with other work a call of more
// than a few is interrupted each time.
import { readFileSync } from 'node:fs';
import { pathToFileURL } from 'node:url';

const web = await import(pathToFileURL(`${process.env.PACKAGE}/index.mjs`));

// The place of a fault is looked for when it is asked for.
function place(text, mode) {
  try { web.normalize(text, mode); } catch (error) { return error.start; }
}

function same(text, mode) {
  try { return web.normalizingEq(text, text, mode); } catch (error) { return error.code; }
}

const calls = { parse: web.check, normalize: web.tryNormalize, compare: same, place };

function least(call, text, mode) {
  let found = Infinity;
  for (let round = 0; round < 9; round++) {
    const start = process.cpuUsage();
    call(text, mode);
    const { user, system } = process.cpuUsage(start);
    found = Math.min(found, (user + system) / 1e3);
  }
  return found;
}

const asked = JSON.parse(readFileSync(0, 'utf8'));
console.log(JSON.stringify(asked.map(([name, mode, ...texts]) => texts.map(it => least(calls[name], it, mode)))));
