// node browse.mjs BROWSER PAGE [PICTURES]: opens the page in chromium, firefox-esr or WebKitGTK's small browser, uses it, and
// prints what was not as wanted, and figures.
import { writeFileSync } from 'node:fs';
import { start, wait } from './browsers.mjs';
import { BORDERS, CONTRAST, USE } from './use_page.mjs';

const [browser, page, pictures] = process.argv.slice(2);
const url = `file://${page}`;
const it = await start(browser);
const failed = [];
const opened = async () => {
  await it.open(url);
  for (let i = 0; i < 100 && !(await it.run('window.isReady === true')); i++) await wait(100);
};
const see = (name, isSo, got) => { if (!isSo) failed.push(`${name}: ${JSON.stringify(got)}`); };
async function seeSmall() {
  await it.size(360, 780);
  const [whole, seen] = await it.run('[document.documentElement.scrollWidth, innerWidth]');
  see('360 pixels wide', whole <= 360 && seen === 360, [whole, seen]);
  if (pictures) writeFileSync(`${pictures}/${browser}_small.png`, await it.picture(), 'base64');
}
try {
  await it.size?.(1000, 1250);
  await opened();
  const narrow = await it.run('document.querySelector("#form-of-module").innerText !== ""');
  // by keys alone: from the text past the modes, their explanation, Copy, the pieces and the link to the first example
  await it.run('document.querySelector("#text").focus()');
  const focused = () => it.run('document.activeElement.textContent'), passed = [];
  for (let i = 0; i < 20 && passed.at(-1) !== 'zh-HANT-tw'; i++) {
    await it.press('Tab');
    passed.push(await focused());
  }
  see('the keys lead to the first example', passed.join(' ').includes('Copy enlanguage Latnscript') && passed.at(-1) === 'zh-HANT-tw', passed);
  if (it.scheme) { // (Firefox's protocol moves the focus, but presses no button)
    await it.press('Enter');
    see('Enter takes it', (await it.run('document.querySelector(".normal").innerText')) === 'zh-Hant-TW', await it.run('document.querySelector("#answer").innerText'));
  }
  for (const scheme of it.scheme ? ['light', 'dark'] : [null]) {
    if (scheme) await it.scheme(scheme);
    for (const text of ['EN-latn-us-POSIX-t-de-m0-din-u-attr-ca-buddhist-a-foo-x-a', 'en-US-foo']) {
      await it.run(`void (document.querySelector('#text').value = '${text}', document.querySelector('#text').dispatchEvent(new Event('input')))`);
      const contrast = await it.run(CONTRAST);
      see(`contrast, ${scheme}, ${text}`, contrast >= 4.5, contrast);
      const borders = await it.run(BORDERS);
      see(`borders, ${scheme}, ${text}`, borders >= 3, borders);
      if (pictures) writeFileSync(`${pictures}/${browser}_${scheme}_${text.length > 20 ? 'normal' : 'refused'}.png`, await it.picture(), 'base64');
    }
  }
  if (it.size) await seeSmall();
  await it.size?.(1000, 1250);
  await opened();
  const used = await it.run(USE);
  failed.push(...used.failed ?? [`the page's script failed: ${used}`]);
  console.log(`${it.name}, ${narrow ? 'narrow' : 'wide'}: ${JSON.stringify(used.figures)}`);
} finally {
  await it.end();
}
for (const line of failed) console.log(`not as wanted: ${line}`);
process.exit(failed.length ? 1 : 0);
