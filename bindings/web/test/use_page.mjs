// The page in a browser, by its own script alone: what a reader does, said as events, and what the page then shows. Each
// browser runs this text inside the page; it returns a list of what was not as wanted, and of figures.
async function usePage() {
  const failed = [], figures = {};
  const see = (name, got, wanted) => {
    if (JSON.stringify(got) !== JSON.stringify(wanted)) failed.push(`${name}: ${JSON.stringify(got)} and not ${JSON.stringify(wanted)}`);
  };
  const find = selector => document.querySelector(selector);
  const said = selector => find(selector)?.innerText.trim() ?? null;
  const rest = () => new Promise(done => setTimeout(done));
  const until = async isSo => {
    for (const end = performance.now() + 200000; !isSo() && performance.now() < end;) await new Promise(done => setTimeout(done, 20));
  };
  const type = (selector, text) => {
    find(selector).value = text;
    find(selector).dispatchEvent(new Event('input', { bubbles: true }));
  };
  const kinds = () => [...document.querySelectorAll('.piece small')].map(it => it.innerText).join(' ');
  await until(() => window.isReady);
  see('ready', window.isReady, true);

  see('the first answer', said('.normal'), 'en-Latn-US-posix-u-ca-buddhist-hc-h12');
  see('pieces', kinds(), 'language script region variant extension key value key value');
  type('#text', 'EN-t-de-latn-m0-True-a-foo-u-KN-true-x-Priv');
  see('normal', said('.normal'), 'en-a-foo-t-de-latn-m0-true-u-kn-x-priv');
  see('parts', [...document.querySelectorAll('th[scope=row]')].map(it => it.innerText),
    ['Language', 'Keyword kn', 'Transformed from', 'Field m0', 'Extension a', 'Private', 'Intl of this browser']);
  const pressed = at => {
    document.querySelectorAll('.piece')[at].click();
    return said('.note');
  };
  type('#text', 'en-u-attr-ca-buddhist-hc-h12-t-de-m0-din');
  see('a piece is explained', [pressed(1).slice(0, 2), pressed(6), pressed(7).slice(0, 12), pressed(8).slice(0, 9), pressed(10), document.querySelectorAll('.piece[aria-pressed=true]').length],
    ['t:', 'attr: attribute. A setting without a value. None is in use today.', 'ca: Calendar', 'buddhist:', 'h12: Hours from 1 to 12.', 1]);
  type('#text', 'EN-us');
  see('what Intl makes of it', said('tbody tr:last-child td'), 'en-US (American English)');
  see('one sentence is said', find('#said').textContent, 'It is a locale: en-US');
  type('#text', 'EN-t-de-latn-m0-True-a-foo-u-KN-true-x-Priv');
  type('#other', 'en-u-kn-a-FOO-t-de-latn-m0-true-x-priv');
  see('same', said('#compared'), 'Both mean the same.');
  type('#other', 'de');
  see('order', said('#compared').endsWith('the first comes after the other.'), true);
  type('#other', 'x');
  see('the other is refused', said('#compared'), '“x”: The given language subtag is invalid.');
  type('#other', '');
  type('#text', 'en-US-foo-bar');
  see('refused', said('#answer .refused'), 'Invalid subtag.');
  see('its place', said('mark'), 'foo');
  see('what may stand there', said('#answer').includes('“foo”, piece 3 of 4, may not stand here. Here may stand a variant, an extension or the end.'), true);
  see('it is invalid', find('#text').getAttribute('aria-invalid'), 'true');
  see('one sentence says why', find('#said').textContent, 'Refused: Invalid subtag. “foo”, piece 3 of 4, may not stand here.');
  type('#text', 'en-u');
  see('too early', said('#answer').includes('The text ends too early. Here may stand an attribute or a key.'), true);
  type('#text', 'en-posix-posix');
  see('twice', said('#answer').includes('“posix”, piece 3 of 3, may not stand here: it stands there already.'), true);
  type('#text', 'en-u-ca-roc-u-hc-h12');
  see('an extension twice', said('#answer').includes('“u”, piece 5 of 7, begins an extension that the text has already.'), true);
  const instead = text => {
    type('#text', text);
    return [...document.querySelectorAll('#answer p button')].map(it => it.innerText);
  };
  see('what to write instead', ['en_US.UTF-8', 'en_US', 'C', 'C.UTF-8', 'root', ' en-US ', 'en US', 'sr_RS@latin', 'ca_ES.UTF-8@valencia', 'en-US-foo', 'a b'].map(instead),
    [['en-US'], ['en-US'], ['und'], ['und'], ['und'], ['en-US'], ['en-US'], ['sr-Latn-RS'], ['ca-ES-valencia'], [], []]);
  type('#text', 'en_US');
  see('the hint', said('#answer').includes('Hint: use hyphens in place of underscores. Write en-US'), true);
  type('#text', 'en_US');
  find('#answer p button').click();
  see('it is taken', [find('#text').value, said('.normal'), find('#text').getAttribute('aria-invalid')], ['en-US', 'en-US', 'false']);
  type('#text', '');
  see('nothing is not refused', [document.querySelectorAll('.refused:not([hidden])').length, find('#text').getAttribute('aria-invalid')], [0, 'false']);
  type('#text', '<img src=x onerror=alert(1)>');
  see('markup is text', [said('mark'), document.querySelectorAll('#answer img').length], ['<img src=x onerror=alert(1)>', 0]);
  type('#text', `en${'-abcde'.repeat(70)}`.replace(/abcde/g, (_, at) => `a${1000 + at}`));
  see('beyond', said('#answer').startsWith('This text is beyond the limits'), true);
  type('#text', 'en-u-ca-buddhist');
  find('input[value=langid]').click();
  see('as a language identifier', said('mark'), 'u');
  find('input[value=data]').click();
  type('#text', 'en-u-sd-gbeng');
  see('as a data locale', said('.normal'), 'en-GB-u-sd-gbeng');
  see('the link', find('#link').getAttribute('href'), '#text=en-u-sd-gbeng&mode=data');
  location.hash = '#text=EN-u-kn-true%26&mode=locale&other=en';
  await new Promise(done => setTimeout(done, 50));
  see('followed', [find('#text').value, find('input[value=locale]').checked, find('#other').value], ['EN-u-kn-true&', true, 'en']);
  find('#examples button').click();
  see('an example', said('.normal'), 'zh-Hant-TW');
  see('the address follows', location.hash, '#text=zh-HANT-tw&mode=locale&other=en');
  const goes = async (steps, wanted) => {
    history.go(steps);
    await until(() => find('#text').value === wanted);
    return [find('#text').value, said('.normal')];
  };
  type('#other', '');
  find('#examples li:nth-child(2) button').click();
  see('back', await goes(-1, 'zh-HANT-tw'), ['zh-HANT-tw', 'zh-Hant-TW']);
  see('forward', await goes(1, 'sr-latn-rs-ekavsk'), ['sr-latn-rs-ekavsk', 'sr-Latn-RS-ekavsk']);
  type('#text', 'de-at');
  await until(() => location.hash.startsWith('#text=de-at'));
  see('typing stays in one entry', location.hash, '#text=de-at&mode=locale');
  const followed = async hash => {
    location.hash = hash;
    await new Promise(done => setTimeout(done, 60));
    return [find('#text').value, find('input[value=data]').checked];
  };
  see('a hash without a text', await followed('#mode=data'), ['', true]);
  see('a newline in a hash', await followed('#text=en%0AUS%0D%0Aa'), ['en US a', false]);
  type('#text', 'EN-us');
  const copied = [];
  document.execCommand = () => { copied.push(document.activeElement.value); return true; };
  Object.defineProperty(navigator, 'clipboard', { value: undefined, configurable: true });
  find('.normal-row button').click();
  await until(() => find('.normal-row button').innerText === 'Copied');
  see('copied without a secure context', [copied, find('#said').textContent], [['en-US'], 'The normal text is copied.']);
  delete document.execCommand;
  delete navigator.clipboard;
  type('#text', `en-x${'-a'.repeat(5000)}`);
  see('many pieces', document.querySelectorAll('.piece').length, 5002);
  type('#text', 'en');
  await useList({ see, find, said, until, rest, figures });
  see('names', unnamed(), []);
  return { failed, figures };

  async function useList({ see, find, said, until, rest, figures }) {
    const done = () => until(() => find('#stop').disabled);
    const rows = () => [...document.querySelectorAll('#answers tbody tr')].map(it => [...it.cells].map(cell => cell.innerText));
    const answered = async text => {
      find('#lines').value = text;
      find('#run').click();
      await done();
      return rows();
    };
    const LINES = '\uFEFFEN-us\r\n  en-u-kn-true \nen-US-foo\n\n sr_RS.UTF-8@latin\nde_DE@foo\n \nde';
    see('a list, cleaned', await answered(LINES), [['1', 'EN-us', 'en-US', ''], ['2', 'en-u-kn-true', 'en-u-kn', ''], ['3', 'en-US-foo', 'Invalid subtag', '6..9'],
      ['4', '', '', ''], ['5', 'sr-Latn-RS', 'sr-Latn-RS', ''], ['6', 'de-DE@foo', 'Invalid subtag', '3..9'], ['7', '', '', ''], ['8', 'de', 'de', '']]);
    see('its counts', said('#counts').startsWith('8 lines as a locale: 4 good, 2 refused, 2 blank; in '), true);
    find('#refused-only').click();
    see('refused lines alone', await answered(LINES), [['3', 'en-US-foo', 'Invalid subtag', '6..9'], ['6', 'de-DE@foo', 'Invalid subtag', '3..9']]);
    find('#answers a').click();
    await until(() => find('#text').value === 'en-US-foo');
    see('the link of a line', [said('mark'), location.hash], ['foo', '#text=en-US-foo&mode=locale']);
    find('#refused-only').click();
    find('#clean').click();
    see('a list as it is', (await answered(LINES)).map(it => it[3]), ['0..3', '0..4', '6..9', '', '0..10', '0..9', '', '']);
    find('#clean').click();
    const dropped = async (bytes, name) => {
      const given = new DataTransfer();
      given.items.add(new File([bytes], name));
      find('#counts').textContent = '';
      find('#lines').dispatchEvent(new DragEvent('drop', { dataTransfer: given, bubbles: true, cancelable: true }));
      await rest();
      await until(() => find('#stop').disabled && find('#counts').innerText.includes('; in '));
      return [...rows().map(it => it[2]), said('#counts').endsWith('; the file is UTF-16.')];
    };
    const wide = (text, isBig) => Uint8Array.from([...text].flatMap(it => isBig ? [it.charCodeAt() >> 8, it.charCodeAt() & 255] : [it.charCodeAt() & 255, it.charCodeAt() >> 8]));
    see('a file that is dropped', await dropped('EN-us\r\nde\r\n', 'utf8.txt'), ['en-US', 'de', false]);
    see('UTF-16 with a mark', await dropped(wide('\uFEFFEN-us\r\nde'), 'le.txt'), ['en-US', 'de', true]);
    see('UTF-16 of the other order', await dropped(wide('\uFEFFEN-us\nde', true), 'be.txt'), ['en-US', 'de', true]);
    see('UTF-16 without a mark', await dropped(wide('EN-us\nde'), 'bare.txt'), ['en-US', 'de', true]);
    // a file of a million lines: the page stays awake, and what is saved has them all
    const lines = ['zh-HANT-tw-u-ca-roc-nu-hanidec', 'de-DE-u-co-phonebk-ca-buddhist-kn', 'en_US.UTF-8@euro', 'sr-latn-rs-ekavsk-u-kn-true-nu-foo-x'];
    const text = `${lines.join('\r\n')}\r\n`.repeat(250000), file = new File([text], 'lines.txt', { type: 'text/plain' });
    const given = new DataTransfer();
    given.items.add(file);
    find('#file').files = given.files;
    let longest = 0, last = performance.now();
    const watch = setInterval(() => {
      longest = Math.max(longest, performance.now() - last);
      last = performance.now();
    }, 5);
    const start = performance.now();
    find('#file').dispatchEvent(new Event('change', { bubbles: true }));
    await rest();
    see('it can be stopped', find('#stop').disabled, false);
    await done();
    clearInterval(watch);
    Object.assign(figures, { lines: 1000000, bytes: file.size, milliseconds: Math.round(performance.now() - start), longest: Math.round(longest) });
    see('a million lines', said('#counts').startsWith('1,000,000 lines as a locale: 750,000 good, 250,000 refused; in '), true);
    see('awake', longest < 1000, true);
    let saved = null;
    const { createObjectURL } = URL, { click } = HTMLAnchorElement.prototype;
    URL.createObjectURL = it => { saved = it; return createObjectURL(it); };
    HTMLAnchorElement.prototype.click = () => {};
    find('#save').click();
    Object.assign(URL, { createObjectURL });
    HTMLAnchorElement.prototype.click = click;
    const all = await saved.text();
    see('what is saved', [all.split('\n').length, all.split('\n')[1], all.split('\n')[3]], [1000002, '1\tzh-HANT-tw-u-ca-roc-nu-hanidec\tzh-Hant-TW-u-ca-roc-nu-hanidec\t\t\t',
      '3\ten-US\ten-US\t\t\t']);
    find('#file').dispatchEvent(new Event('change', { bubbles: true }));
    await rest();
    find('#stop').click();
    await done();
    see('stopped', / stopped after /.test(said('#counts')), true);
  }

  // Controls without a name.
  function unnamed() {
    return [...document.querySelectorAll('input, textarea, button, progress, [role=region], summary')].filter(it =>
      !it.hidden && !(it.labels?.length || it.getAttribute('aria-label') || it.getAttribute('aria-labelledby') || it.innerText)).map(it => it.id);
  }
}

// The least contrast of a text's colour with what lies behind it.
function leastContrast() {
  const light = colour => {
    const [r, g, b] = colour.match(/[0-9.]+/g).map(Number).map(v => ((v /= 255) <= 0.03928 ? v / 12.92 : ((v + 0.055) / 1.055) ** 2.4));
    return 0.2126 * r + 0.7152 * g + 0.0722 * b;
  };
  const behind = it => {
    for (; it; it = it.parentElement) {
      const colour = getComputedStyle(it).backgroundColor;
      if (!/, 0\)$/.test(colour) && colour !== 'transparent') return colour;
    }
    return 'rgb(255, 255, 255)';
  };
  let least = 99;
  for (const it of document.querySelectorAll('body *')) {
    const hasText = [...it.childNodes].some(node => node.nodeType === 3 && node.textContent.trim());
    if (!hasText || ['SCRIPT', 'STYLE', 'NOSCRIPT'].includes(it.tagName) || it.disabled || !it.offsetParent) continue;
    const [more, less] = [light(getComputedStyle(it).color), light(behind(it))].sort((x, y) => y - x);
    least = Math.min(least, (more + 0.05) / (less + 0.05));
  }
  return least;
}

// The least contrast of a control's border with what lies around it.
function leastBorder() {
  const light = colour => {
    const [r, g, b] = colour.match(/[0-9.]+/g).map(Number).map(v => ((v /= 255) <= 0.03928 ? v / 12.92 : ((v + 0.055) / 1.055) ** 2.4));
    return 0.2126 * r + 0.7152 * g + 0.0722 * b;
  };
  const back = light(getComputedStyle(document.body).backgroundColor);
  return Math.min(...[...document.querySelectorAll('button, input[type=text], textarea')].filter(it => it.offsetParent).map(it => {
    const [more, less] = [light(getComputedStyle(it).borderTopColor), back].sort((x, y) => y - x);
    return (more + 0.05) / (less + 0.05);
  }));
}

export const BORDERS = `(${leastBorder})()`;
export const USE = `(${usePage})()`;
export const CONTRAST = `(${leastContrast})()`;
