// node serve.mjs BROWSER PACKAGE [BUNDLE]: serves the package on loopback under a strict content security policy, uses it in a
// page, a worker and a service worker, and prints what was not as wanted. BUNDLE is a script that a bundler made of it.
import { readFileSync } from 'node:fs';
import { createServer } from 'node:http';
import { start, wait } from './browsers.mjs';

const [browser, folder, bundle] = process.argv.slice(2);
const POLICY = "default-src 'none'; script-src 'self' 'wasm-unsafe-eval'; worker-src 'self'; connect-src 'self'";
const PAGE = `<!DOCTYPE html><title>test</title>${bundle ? '<script src="/bundle.js"></script>' : ''}<script type="module" src="/page.mjs"></script>`;

// What the page does. It puts the names of what failed into `window.failed`.
async function usePackage({ Locale, LocaleError, normalize }) {
  const failed = [], see = (name, got, wanted) => { if (JSON.stringify(got) !== JSON.stringify(wanted)) failed.push(`${name}: ${JSON.stringify(got)}`); };
  const it = new Locale('DE-de-u-nu-THAI');
  const answerOf = (target, text) => new Promise((done, not) => {
    const { port1, port2 } = new MessageChannel();
    port1.onmessage = ({ data }) => done(data);
    setTimeout(not, 10000, new Error('no answer'));
    target.postMessage({ text, locale: it }, [port2]);
  });
  const WANTED = { normal: 'en-US-u-kn', clone: { normal: 'de-DE-u-nu-thai', mode: 'locale' }, region: 'DE', code: 'InvalidSubtag' };
  const whole = async (name, make) => {
    try { see(name, await answerOf(await make(), 'EN-us-u-kn-true'), WANTED); } catch (error) { failed.push(`${name}: ${error}`); }
  };
  for (const name of ['DateTimeFormat', 'NumberFormat', 'Collator', 'PluralRules'])
    see(name, new Intl[name](it).resolvedOptions().locale, new Intl[name]('de-DE-u-nu-thai').resolvedOptions().locale);
  see('numbering system', new Intl.NumberFormat(it).resolvedOptions().numberingSystem, 'thai');
  see('Intl.getCanonicalLocales', Intl.getCanonicalLocales(it), ['de-DE-u-nu-thai']);
  see('toLocaleString', (1.5).toLocaleString(it), (1.5).toLocaleString('de-DE-u-nu-thai'));
  see('with', String(it.with({ region: 'AT', numberingSystem: undefined })), 'de-AT');
  see('clone', structuredClone(it), WANTED.clone);
  see('Intl.Locale', normalize(new Intl.Locale('en-u-ca-roc')), 'en-u-ca-roc');
  try { normalize('en_US'); } catch (error) { see('error', [error instanceof LocaleError, error.code, error.toJSON().end], [true, 'InvalidLanguage', 5]); }
  if (window.bundled) see('a bundle', window.bundled, 'en-GB-u-ca-buddhist');
  await whole('worker', () => new Worker('/worker.mjs', { type: 'module' }));
  const served = async () => {
    const { serviceWorker } = navigator;
    await serviceWorker.register('/service.mjs', { type: 'module' });
    return (await serviceWorker.ready).active;
  };
  if (navigator.serviceWorker) await whole('service worker', served);
  else failed.push('service worker: there is none');
  return failed;
}

const WORKER = `import { Locale, normalize, tryNormalize } from '/package/index.mjs';
addEventListener('message', ({ data: { text, locale }, ports: [port] }) => port.postMessage({ normal: normalize(text), clone: locale,
  region: new Locale(locale).region, code: tryNormalize('en-').code }));\n`;
const FILES = {
  '/': ['text/html', PAGE],
  '/page.mjs': ['text/javascript', `import * as library from '/package/index.mjs';\n(${usePackage})(library).catch(it => [String(it)]).then(it => { window.failed = it; });\n`],
  '/worker.mjs': ['text/javascript', WORKER],
  '/service.mjs': ['text/javascript', WORKER],
  ...(bundle ? { '/bundle.js': ['text/javascript', readFileSync(bundle)] } : {}),
};
const server = createServer(({ url }, response) => {
  const name = /^\/package\/(\w+\.mjs)$/.exec(url)?.[1];
  const [type, text] = FILES[url] ?? (name ? ['text/javascript', readFileSync(`${folder}/${name}`)] : []);
  response.writeHead(type ? 200 : 404, { 'Content-Type': type ?? 'text/plain', 'Content-Security-Policy': POLICY }).end(text);
});
await new Promise(done => server.listen(0, '127.0.0.1', done));
const it = await start(browser);
let failed = ['the page did not load'];
try {
  await it.open(`http://127.0.0.1:${server.address().port}/`);
  for (let i = 0; i < 300 && !(await it.run('Boolean(window.failed)')); i++) await wait(100);
  failed = (await it.run('window.failed')) ?? failed;
  console.log(`${it.name}: the package in a page, a worker and a service worker`);
} finally {
  await it.end();
  server.close();
}
for (const line of failed) console.log(`not as wanted: ${line}`);
process.exit(failed.length ? 1 : 0);
