// The page. `library` is the package.
const library = /*LIBRARY*/;
/*HELPERS*/
const { clean, compare, findFault, isNarrow, partsOfNormal, size, tryNormalize, wordsOf } = library;

const find = id => document.getElementById(id);
const make = (name, attributes = {}, ...children) => {
  const it = document.createElement(name);
  for (const [key, value] of Object.entries(attributes)) it.setAttribute(key, value);
  it.append(...children);
  return it;
};
const text = find('text'), answer = find('answer'), other = find('other'), compared = find('compared');
const mode = () => find('form').elements.mode.value;
const MODES = { langid: 'a language identifier', locale: 'a locale', data: 'a data locale' };
const SAMPLES = ['zh-HANT-tw', 'sr-latn-rs-ekavsk', 'de-DE-u-co-phonebk-ca-islamic-civil', 'en-t-de-latn-m0-true-x-Priv',
  'en_US.UTF-8', 'en-US-foo', 'de-u-ca-buddhist-u-hc-h12', 'en-GB-u-sd-gbeng'];
const BEYOND = 'BeyondLimits';

// What is said once, to those who hear the page.
const say = words => { find('said').textContent = words; };

// Copies a text, also where the page has no secure context: says whether it could.
async function copy(it) {
  try {
    await navigator.clipboard.writeText(it);
    return true;
  } catch {
    const area = make('textarea', { class: 'hidden', readonly: '', 'aria-hidden': 'true' });
    const focused = document.activeElement;
    area.value = it;
    document.body.append(area);
    area.select();
    const isDone = document.execCommand('copy');
    area.remove();
    focused?.focus();
    return isDone;
  }
}

// An accepted text.

// What a piece is, in words: of a key or a value by its name, else by its kind.
function meaningOf(pieces, at) {
  const { text, kind, of } = pieces[at], [name, words] = KINDS[kind];
  if (kind === 'key' || kind === 'field') return `${text}: ${KEYS[text] ?? words}`;
  if (kind === 'singleton') return `${text}: ${{ u: 'Settings of the locale: what follows has keys and values.', t: 'The text was transformed, from what follows.', x: 'Private use: what follows has no meaning here.' }[text] ?? words}`;
  const key = kind === 'value' ? pieces.slice(0, at).findLast(it => it.kind === 'key' || it.kind === 'field')?.text : undefined;
  if (key === undefined) return `${text}: ${name}. ${words}`;
  return `${text}: ${VALUES[`${key} ${text}`] ?? `value of ${key}. ${KEYS[key] ?? words}`}${of === 't' ? ' (of the transformation)' : ''}`;
}

function shownPieces(pieces) {
  const list = make('ul', { class: 'pieces', dir: 'ltr', 'aria-label': 'Its pieces: press one for what it is' });
  const note = make('p', { class: 'note faint', role: 'status', 'aria-live': 'polite' }, 'Press a piece for what it is.');
  pieces.forEach(({ text, kind }, at) => {
    const button = make('button', { type: 'button', class: `piece ${kind}`, 'aria-pressed': 'false' }, make('b', {}, text), make('small', {}, KINDS[kind][0]));
    button.addEventListener('click', () => {
      for (const it of list.querySelectorAll('button')) it.setAttribute('aria-pressed', String(it === button));
      note.textContent = meaningOf(pieces, at);
    });
    list.append(make('li', {}, button));
  });
  return [list, note];
}

function shownNormal(normal) {
  const button = make('button', { type: 'button', 'aria-label': 'Copy the normal text' }, 'Copy');
  button.addEventListener('click', async () => {
    const isDone = await copy(normal);
    button.textContent = isDone ? 'Copied' : 'Not copied';
    say(isDone ? 'The normal text is copied.' : 'The browser did not copy it: select the text and copy it by hand.');
  });
  return make('div', { class: 'normal-row' }, make('output', { class: 'normal mono', dir: 'ltr', for: 'text' }, normal), button);
}

// What `Intl` of this browser makes of the text: its own normal text, and a name of it.
function ofIntl(written) {
  try {
    const [it] = Intl.getCanonicalLocales(written);
    const name = new Intl.DisplayNames('en', { type: 'language' }).of(new Intl.Locale(it).baseName);
    return `${it} (${name})`;
  } catch (error) {
    return error instanceof RangeError ? 'refuses it' : 'is not here';
  }
}

function rowsOf(it, written) {
  const rows = [['Language', it.language], ['Script', it.script], ['Region', it.region], ['Variants', it.variants.join(', ')],
    ['Attributes', it.attributes.join(', ')],
    ...Object.entries(it.keywords).map(([key, value]) => [`Keyword ${key}`, value || '(true)'])];
  if (it.transform) {
    const { language, script, region, variants, fields } = it.transform;
    const from = [language, script, region, ...variants].filter(Boolean).join('-');
    rows.push(['Transformed from', from], ...Object.entries(fields).map(([key, value]) => [`Field ${key}`, value]));
  }
  rows.push(...Object.entries(it.others).map(([key, value]) => [`Extension ${key}`, value]), ['Private', it.private.join('-')]);
  return [...rows, ['Intl of this browser', ofIntl(written)]].filter(([, value]) => value);
}

function shownParts(it, written) {
  const body = make('tbody');
  for (const [name, value] of rowsOf(it, written))
    body.append(make('tr', {}, make('th', { scope: 'row' }, name), make('td', { class: 'mono' }, value)));
  return make('table', {}, make('caption', { class: 'hidden' }, 'Its parts'), body);
}

// A refused text.

// What may stand at the place of the fault: the words of the module, and the end of the text.
function mayStand({ expected }) {
  const words = expected.length < 2 ? expected.join('') : `${expected.slice(0, -1).join(', ')} or ${expected.at(-1)}`;
  return `Here may stand ${words}.`;
}

// What is wrong with the piece at the place.
function wrongPiece(written, { start, end, code }) {
  const pieces = written.split('-'), piece = written.slice(start, end), number = written.slice(0, start).split('-').length;
  const before = written.slice(0, start).toLowerCase().split('-');
  if (start === written.length && pieces.at(-1) !== '') return 'The text ends too early.';
  if (piece === '') return `Piece ${number} of ${pieces.length} is empty.`;
  const which = `“${piece}”, piece ${number} of ${pieces.length},`;
  if (code === 'DuplicatedExtension') return `${which} begins an extension that the text has already.`;
  if (before.includes(piece.toLowerCase())) return `${which} may not stand here: it stands there already.`;
  return `${which} may not stand here.`;
}

// What cleaning leaves of a line. (Of one beyond the limits, all of it.)
function cleaned(line) {
  try { return clean(line); } catch { return line; }
}

// Texts to write instead of one that has a hint: what cleaning leaves, perhaps with hyphens for its blanks, or what the hint names.
function insteadOf(written, hint) {
  const bare = cleaned(written.trim()); // (a mark counts as a blank)
  const found = [bare, bare.replace(/\s+/g, '-'), ...hint.match(/\bund\b/) ?? []];
  return found.find(it => tryNormalize(it, mode()).normal !== undefined);
}

function shownHint(written, { hint }) {
  if (hint === undefined) return [];
  const line = make('p', {}, `Hint: ${hint}.`), instead = insteadOf(written, hint);
  if (instead === undefined) return [line];
  const button = make('button', { type: 'button', class: 'mono' }, instead);
  button.addEventListener('click', () => { take(instead); text.focus(); });
  line.append(' Write ', button);
  return [line];
}

function shownFault(written, code) {
  const fault = findFault(written, mode()), { start, end } = fault, words = wordsOf(code);
  const echo = make('div', { class: 'echo mono', dir: 'ltr' }, written.slice(0, start), make('mark', {}, written.slice(start, end) || '␣'), written.slice(end));
  const wrong = wrongPiece(written, fault);
  say(`Refused: ${words}. ${wrong}`);
  return [make('p', { class: 'refused' }, `${words}.`), echo, make('p', {}, `${wrong} ${mayStand(fault)}`), ...shownHint(written, fault),
    make('p', { class: 'faint' }, `Intl of this browser: ${ofIntl(written)}.`)];
}

function shownAnswer(written) {
  const it = tryNormalize(written, mode());
  text.setAttribute('aria-invalid', String(written !== '' && it.code !== undefined && it.code !== BEYOND));
  if (it.code === BEYOND) {
    say('This text is beyond the limits.');
    return [make('p', {}, 'This text is beyond the limits: it has more than 64 pieces or 65,535 bytes. It may be good or not.')];
  }
  if (written === '') {
    say('');
    return [make('p', { class: 'faint' }, 'Type a text, or take an example.')];
  }
  if (it.code !== undefined) return shownFault(written, it.code);
  const found = partsOfNormal(it.normal), is = `It is ${MODES[mode()]}`;
  say(`${is}: ${it.normal}`);
  const words = it.normal === written ? `${is}, and its own normal text.` : `${is}. This is its normal text.`;
  return [shownNormal(it.normal), make('div', { class: 'faint' }, words), ...shownPieces(found.pieces), shownParts(found, written)];
}

function comparedText(written, second) {
  if (second === '') return '';
  try {
    const order = compare(written, second, mode());
    return order === 0 ? 'Both mean the same.'
      : `They mean different things; in the order of normal texts the first comes ${order < 0 ? 'before' : 'after'} the other.`;
  } catch (error) {
    return `“${error.text}”: ${wordsOf(error.code)}.`;
  }
}

// A call that fails is shown, and no answer to another text stays.
function shown(part, call) {
  try {
    return call();
  } catch (error) {
    say('An error in the page.');
    return [make('p', { class: 'refused' }, `The page failed at this ${part}: ${error.message}`)];
  }
}

// The address, which follows what is shown, and is followed where it changes.

const MOST_IN_ADDRESS = 8000;
const addressOf = (written, second = '') => {
  const words = new URLSearchParams({ text: written, mode: mode() });
  if (second !== '') words.set('other', second);
  return `#${words}`;
};

function show() {
  answer.replaceChildren(...shown('text', () => shownAnswer(text.value)));
  compared.textContent = comparedText(text.value, other.value);
  find('link').href = addressOf(text.value, other.value);
}

// Shows, and has the address follow: by a new entry of the history, or in the place of the present one.
let waits = 0;
function showAndFollow(isNew) {
  show();
  clearTimeout(waits);
  const address = find('link').getAttribute('href');
  if (address.length > MOST_IN_ADDRESS) return;
  // (an engine takes so many changes of the address alone)
  const put = () => { try { history[isNew ? 'pushState' : 'replaceState'](null, '', address); } catch { /* (it has had enough) */ } };
  if (isNew) put(); else waits = setTimeout(put, 300);
}

function take(it) {
  text.value = it;
  showAndFollow(true);
}

// A field of one line leaves newlines out, so that what stands around them would melt together.
const oneLine = it => it.replace(/\r\n|[\r\n]/g, ' ');

// Takes text, other text and mode from the address. Without a hash these stay.
function follow() {
  const hash = location.hash.slice(1), words = new URLSearchParams(hash);
  if (hash === '') return;
  clearTimeout(waits);
  text.value = oneLine(words.get('text') ?? '');
  other.value = oneLine(words.get('other') ?? '');
  const wanted = Object.hasOwn(MODES, words.get('mode') ?? '') ? words.get('mode') : 'locale';
  for (const it of find('form').elements.mode) it.checked = it.value === wanted;
}

// An input without a byte order mark at its start.
const withoutMark = it => it.startsWith('\uFEFF') ? it.slice(1) : it;

// A list.

const FEW = 200; // lines that the page shows
let isStopped = false, saved = null;

// The texts of a string, part by part. (A part may end in the middle of a line.)
function* partsOfString(it) {
  for (let at = 0; at < it.length; at += 1 << 16) yield it.slice(at, at + (1 << 16));
}

// How a file that begins with these bytes is written: by its mark, or by where zeros stand.
function encodingOf([a, b, c, d]) {
  if (a === 0xff && b === 0xfe) return 'utf-16le';
  if (a === 0xfe && b === 0xff) return 'utf-16be';
  if (a && b === 0 && (d === 0 || d === undefined)) return 'utf-16le';
  return a === 0 && b && (c === 0 || c === undefined) ? 'utf-16be' : 'utf-8';
}

async function* partsOfFile(file, encoding) {
  const decoder = new TextDecoder(encoding, { ignoreBOM: encoding === 'utf-8' });
  for (let at = 0; at < file.size; at += 1 << 18)
    yield decoder.decode(await file.slice(at, at + (1 << 18)).arrayBuffer(), { stream: true });
  yield decoder.decode();
}

// The lines of parts, many at once, each time with how many units were read.
async function* linesOf(parts) {
  let rest = '', read = 0;
  for await (const part of parts) {
    const lines = (rest + part).split('\n');
    rest = lines.pop();
    read += part.length;
    yield { lines, read };
  }
  if (rest !== '') yield { lines: [rest], read };
}

const pause = () => new Promise(done => setTimeout(done));
const ESCAPES = { '\t': '\\t', '\r': '\\r', '\n': '\\n', '\\': '\\\\' };
const escaped = it => /[\t\r\n\\]/.test(it) ? it.replace(/[\t\r\n\\]/g, found => ESCAPES[found]) : it;
const HEAD = 'line\ttext\tnormal\trefusal\tstart\tend\n';

class Answers {
  constructor(mode, isCleaned, isRefusedOnly) {
    Object.assign(this, { mode, isCleaned, isRefusedOnly, count: 0, good: 0, refused: 0, beyond: 0, blank: 0, rows: 0, shown: [], texts: [HEAD] });
  }

  // Answers a line, and returns what is saved of it.
  take(line) {
    const first = this.count === 0 ? withoutMark(line) : line, written = this.isCleaned ? cleaned(first) : line;
    this.count++;
    if (written.trim() === '') {
      this.blank++;
      return this.isRefusedOnly ? '' : this.row('');
    }
    const { normal, code } = tryNormalize(written, this.mode);
    if (normal !== undefined) this.good++;
    else if (code === BEYOND) this.beyond++;
    else this.refused++;
    if (normal !== undefined) return this.isRefusedOnly ? '' : this.row(written, normal);
    const place = findFault(written, this.mode);
    return this.row(written, '', wordsOf(code), place?.start, place?.end);
  }

  row(written, normal = '', message = '', start = '', end = '') {
    this.rows++;
    if (this.shown.length < FEW) this.shown.push({ number: this.count, written, normal, message, start, end });
    return `${this.count}\t${escaped(written)}\t${normal}\t${message}\t${start}\t${end}\n`;
  }

  // Answers lines for at most some milliseconds at a time, then lets the page draw.
  async takeAll(lines) {
    for (let at = 0; at < lines.length && !isStopped;) {
      let text = '';
      for (const until = performance.now() + 12; at < lines.length && performance.now() < until;) {
        for (const end = Math.min(at + 100, lines.length); at < end; at++) text += this.take(lines[at]);
      }
      this.texts.push(new Blob([text]));
      await pause();
    }
  }

  words() {
    const some = (count, what) => count === 0 ? '' : `, ${count.toLocaleString('en')} ${what}`;
    return `${this.count.toLocaleString('en')} lines as ${MODES[this.mode]}: ${this.good.toLocaleString('en')} good, `
      + `${this.refused.toLocaleString('en')} refused${some(this.beyond, 'beyond the limits')}${some(this.blank, 'blank')}`;
  }
}

function shownRow({ number, written, normal, message, start, end }) {
  const place = start === '' ? '' : `${start}..${end}`;
  const link = written === '' ? '' : make('a', { href: addressOf(written), class: 'mono' }, written);
  return make('tr', {}, make('td', { class: 'number' }, String(number)), make('td', {}, link),
    make('td', { class: message === '' ? 'mono' : 'refused' }, message || normal), make('td', { class: 'mono' }, place));
}

function shownLines({ shown, rows, isRefusedOnly }) {
  const head = make('tr', {}, ...['Line', 'Text', 'Answer', 'Place'].map(it => make('th', { scope: 'col' }, it)));
  const what = isRefusedOnly ? 'refused lines' : 'lines';
  const caption = rows > FEW ? `The first ${FEW} ${what}; the saved table has all.` : `All ${what}`;
  return make('table', {}, make('caption', { class: 'faint' }, caption), make('thead', {}, head), make('tbody', {}, ...shown.map(shownRow)));
}

function begin(all) {
  isStopped = false;
  find('run').disabled = find('file').disabled = find('save').disabled = true;
  find('stop').disabled = false;
  Object.assign(find('progress'), { max: Math.max(all, 1), value: 0, hidden: false });
}

async function answerParts(parts, note = '') {
  const answers = new Answers(mode(), find('clean').checked, find('refused-only').checked), start = performance.now();
  for await (const { lines, read } of linesOf(parts)) {
    await answers.takeAll(lines);
    if (isStopped) break;
    find('progress').value = read;
    find('counts').textContent = `${answers.words()}; going on`;
  }
  const time = `${((performance.now() - start) / 1000).toFixed(1)} seconds`;
  find('counts').textContent = `${answers.words()}; ${isStopped ? 'stopped after' : 'in'} ${time}${note}.`;
  find('answers').replaceChildren(shownLines(answers));
  find('answers').hidden = false;
  saved = new Blob(answers.texts, { type: 'text/tab-separated-values' });
  find('run').disabled = find('file').disabled = find('save').disabled = false;
  find('stop').disabled = true;
}

async function answerFile(file) {
  begin(file.size);
  const encoding = encodingOf(new Uint8Array(await file.slice(0, 4).arrayBuffer()));
  if (encoding !== 'utf-8') find('progress').max = Math.max(file.size / 2, 1);
  await answerParts(partsOfFile(file, encoding), encoding === 'utf-8' ? '' : '; the file is UTF-16');
}

function answerLines() {
  const { value } = find('lines');
  begin(value.length);
  return answerParts(partsOfString(value));
}

function save() {
  const link = make('a', { href: URL.createObjectURL(saved), download: 'locales.tsv' });
  link.click();
  setTimeout(() => URL.revokeObjectURL(link.href), 10000);
}

// What happens when.

for (const it of SAMPLES) {
  const button = make('button', { type: 'button', class: 'mono' }, it);
  button.addEventListener('click', () => take(it));
  find('examples').append(make('li', {}, button));
}
find('form').addEventListener('submit', event => event.preventDefault());
text.addEventListener('input', () => showAndFollow(false));
other.addEventListener('input', () => showAndFollow(false));
find('modes').addEventListener('change', () => showAndFollow(true));
// (an entry of the history without a hash is the page as it was opened)
const opened = text.value;
window.addEventListener('popstate', () => {
  if (location.hash === '') text.value = opened;
  follow();
  show();
});
find('run').addEventListener('click', answerLines);
find('file').addEventListener('change', ({ target }) => target.files[0] && answerFile(target.files[0]));
for (const name of ['dragenter', 'dragover', 'dragleave', 'drop']) {
  find('list').addEventListener(name, event => {
    if (!event.dataTransfer?.types.includes('Files')) return;
    event.preventDefault();
    find('list').classList.toggle('over', name === 'dragenter' || name === 'dragover');
    if (name === 'drop' && find('stop').disabled && event.dataTransfer.files[0]) answerFile(event.dataTransfer.files[0]);
  });
}
find('stop').addEventListener('click', () => { isStopped = true; });
find('save').addEventListener('click', save);
find('size').textContent = size.toLocaleString('en');
find('form-of-module').textContent = isNarrow
  ? 'This browser has no 64-bit memory for WebAssembly, so a form of the module for 32 bits is used, made by a tool that nothing proves.' : '';
follow();
show();
window.isReady = true;
