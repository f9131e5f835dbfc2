// The browsers that a test uses, each headless: what starts it, and what it does when asked. Chromium by the DevTools protocol,
// Firefox by WebDriver BiDi, WebKitGTK's small browser by WebDriver, all on loopback.
import { spawn } from 'node:child_process';
import { mkdtempSync, readFileSync, rmSync, writeFileSync } from 'node:fs';
import { tmpdir } from 'node:os';
import { connect } from './socket.mjs';

export const wait = milliseconds => new Promise(done => setTimeout(done, milliseconds));
const folder = mkdtempSync(`${tmpdir()}/web-`);

async function tried(make) {
  for (let i = 0; ; i++) {
    try { return await make(); } catch (error) { if (i > 200) throw error; await wait(200); }
  }
}

async function chromium() {
  const words = ['--headless=new', '--no-sandbox', '--disable-gpu', '--hide-scrollbars', '--no-first-run', '--disable-background-networking',
    `--user-data-dir=${folder}`, '--remote-debugging-port=0', 'about:blank'];
  const child = spawn('chromium', words, { stdio: 'ignore' });
  const port = Number(await tried(() => readFileSync(`${folder}/DevToolsActivePort`, 'utf8').split('\n')[0]));
  const [{ webSocketDebuggerUrl }] = await tried(async () => (await (await fetch(`http://127.0.0.1:${port}/json`)).json()).filter(it => it.type === 'page'));
  const { call, close } = await connect(port, new URL(webSocketDebuggerUrl).pathname);
  return {
    child, close,
    name: (await call('Browser.getVersion')).product,
    open: url => call('Page.navigate', { url }),
    run: async expression => {
      const { result, exceptionDetails } = await call('Runtime.evaluate', { expression, awaitPromise: true, returnByValue: true });
      if (exceptionDetails) throw new Error(exceptionDetails.exception?.description ?? exceptionDetails.text);
      return result.value;
    },
    size: (width, height) => call('Emulation.setDeviceMetricsOverride', { width, height, deviceScaleFactor: 1, mobile: width < 500 }),
    scheme: value => call('Emulation.setEmulatedMedia', { features: [{ name: 'prefers-color-scheme', value }] }),
    press: async key => {
      const code = { Tab: 9, Enter: 13 }[key], text = key === 'Enter' ? '\r' : undefined;
      for (const type of ['keyDown', 'keyUp']) await call('Input.dispatchKeyEvent', { type, key, code: key, windowsVirtualKeyCode: code, text: type === 'keyDown' ? text : undefined });
    },
    picture: async () => (await call('Page.captureScreenshot')).data,
  };
}

async function firefox() {
  writeFileSync(`${folder}/user.js`, 'user_pref("datareporting.policy.dataSubmissionEnabled", false);\nuser_pref("app.update.enabled", false);\n');
  const port = 20000 + (process.pid % 20000);
  const child = spawn('firefox-esr', ['--headless', '--no-remote', '--profile', folder, `--remote-debugging-port=${port}`], { stdio: 'ignore' });
  const { call, close } = await tried(() => connect(port, '/session'));
  const { capabilities } = await call('session.new', { capabilities: {} });
  const { contexts: [{ context }] } = await call('browsingContext.getTree');
  return {
    child, close,
    name: `${capabilities.browserName} ${capabilities.browserVersion}`,
    open: url => call('browsingContext.navigate', { context, url, wait: 'complete' }),
    run: async expression => {
      const it = await call('script.evaluate', { expression: `Promise.resolve(${expression}).then(it => JSON.stringify(it))`, target: { context }, awaitPromise: true });
      if (it.type === 'exception') throw new Error(it.exceptionDetails.text);
      return it.result.value === undefined ? undefined : JSON.parse(it.result.value);
    },
    size: (width, height) => call('browsingContext.setViewport', { context, viewport: { width, height } }),
    scheme: null, // (it has no call for it)
    press: key => call('input.performActions', { context, actions: [{ type: 'key', id: 'keys', actions: ['keyDown', 'keyUp'].map(type => ({ type, value: { Tab: '\uE004', Enter: '\uE007' }[key] })) }] }),
    picture: async () => (await call('browsingContext.captureScreenshot', { context })).data,
  };
}

// WebKitGTK, which draws to a screen that nobody sees.
async function webkit() {
  const port = 20000 + (process.pid % 20000), display = `:${100 + (process.pid % 900)}`;
  const screen = spawn('Xvfb', [display, '-screen', '0', '1280x1400x24'], { stdio: 'ignore' });
  const child = spawn('WebKitWebDriver', [`--port=${port}`], { stdio: 'ignore', env: { ...process.env, DISPLAY: display } });
  const ask = async (method, path, body) => {
    const { value } = await (await fetch(`http://127.0.0.1:${port}${path}`, { method, body: JSON.stringify(body) })).json();
    if (value?.error) throw new Error(value.message);
    return value;
  };
  const { sessionId, capabilities } = await tried(() => ask('POST', '/session', { capabilities: {} }));
  const call = (path, body) => ask('POST', `/session/${sessionId}/${path}`, body);
  await call('timeouts', { script: 240000 });
  return {
    child,
    close: async () => { await ask('DELETE', `/session/${sessionId}`); screen.kill(); },
    name: `WebKit ${capabilities.browserVersion}`,
    open: url => call('url', { url }),
    run: async expression => {
      const script = `const done = arguments[0]; Promise.resolve(${expression}).then(it => done(JSON.stringify(it)), error => done(JSON.stringify([String(error)])))`;
      const it = await call('execute/async', { script, args: [] });
      return typeof it === 'string' ? JSON.parse(it) : undefined;
    },
    size: null, // (its window has a bar of buttons, which is wider than 360 pixels)
    scheme: null,
    press: key => call('actions', { actions: [{ type: 'key', id: 'keys', actions: ['keyDown', 'keyUp'].map(type => ({ type, value: { Tab: '\uE004', Enter: '\uE007' }[key] })) }] }),
    picture: () => ask('GET', `/session/${sessionId}/screenshot`),
  };
}

/** Starts a browser. `end` ends it. */
export async function start(browser) {
  const it = await { chromium, firefox, webkit }[browser]();
  const end = async () => {
    await it.close();
    it.child.kill();
    await wait(500);
    rmSync(folder, { recursive: true, force: true, maxRetries: 5 });
  };
  return { ...it, end };
}
