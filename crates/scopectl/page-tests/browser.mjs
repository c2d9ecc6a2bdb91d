// Debian's chromium without a window, driven over its debugging port.
import { spawn } from 'node:child_process';
import fs from 'node:fs';
import os from 'node:os';
import path from 'node:path';

const pause = (ms) => new Promise((done) => setTimeout(done, ms));

export async function browser(binary) {
  const home = fs.mkdtempSync(path.join(os.tmpdir(), 'page-'));
  const flags = ['--headless=new', '--no-sandbox', '--disable-gpu', '--disable-dev-shm-usage', '--no-first-run', '--disable-background-networking', '--remote-debugging-port=0', `--user-data-dir=${home}`, '--window-size=1440,900', 'about:blank'];
  const child = spawn(binary, flags, { stdio: ['ignore', 'ignore', 'pipe'] });
  const address = await new Promise((found, lost) => {
    let said = '';
    child.stderr.on('data', (data) => { said += data; const match = /ws:\/\/\S+/.exec(said); if (match) found(new URL(match[0])); });
    child.on('exit', () => lost(new Error(`${binary} ended: ${said}`)));
  });
  let tab;
  for (let tries = 0; !tab && tries < 80; tries++) {
    tab = (await (await fetch(`http://${address.host}/json`)).json()).find((target) => target.type === 'page');
    if (!tab) await pause(100);
  }
  const wire = await open(tab.webSocketDebuggerUrl);
  return { ...wire, async end() { wire.close(); child.kill(); await pause(300); fs.rmSync(home, { recursive: true, force: true }); } };
}

async function open(url) {
  const { Socket } = await import('./socket.mjs');
  const socket = new Socket(url), waiting = new Map(), complaints = [], requests = [];
  let id = 0, loaded = () => {};
  await socket.ready;
  socket.onmessage = (text) => {
    const message = JSON.parse(text);
    if (message.id) { waiting.get(message.id)(message); waiting.delete(message.id); return; }
    const { method, params } = message;
    if (method === 'Page.loadEventFired') loaded();
    if (method === 'Runtime.exceptionThrown') complaints.push(params.exceptionDetails.exception?.description ?? params.exceptionDetails.text);
    if (method === 'Log.entryAdded' && params.entry.level !== 'verbose') complaints.push(params.entry.text);
    if (method === 'Runtime.consoleAPICalled') complaints.push(params.args.map((arg) => arg.value ?? arg.description).join(' '));
    if (method === 'Network.requestWillBeSent') requests.push(params.request.url);
  };
  const send = (method, params = {}) => new Promise((done) => { waiting.set(++id, done); socket.send(JSON.stringify({ id, method, params })); });
  for (const domain of ['Page', 'Runtime', 'Log', 'Network', 'Performance']) await send(`${domain}.enable`);
  const view = (dark = false, width = 1440, height = 900) => Promise.all([
    send('Emulation.setDeviceMetricsOverride', { width, height, deviceScaleFactor: 1, mobile: width < 600 }),
    send('Emulation.setEmulatedMedia', { features: [{ name: 'prefers-color-scheme', value: dark ? 'dark' : 'light' }] }),
  ]);
  await view();
  return {
    complaints, requests, send, view, close: () => socket.close(),
    async load(file) {
      complaints.length = requests.length = 0;
      const done = new Promise((fired) => { loaded = fired; }), from = performance.now();
      await send('Page.navigate', { url: `file://${file}` });
      await done;
      return performance.now() - from;
    },
    async run(source) {
      const { result } = await send('Runtime.evaluate', { expression: source, awaitPromise: true, returnByValue: true });
      if (result.exceptionDetails) throw new Error(`${source.slice(0, 120)}: ${result.exceptionDetails.exception?.description ?? result.exceptionDetails.text}`);
      return result.result.value;
    },
    async press(key, text = key.length === 1 ? key : undefined) {
      for (const type of ['keyDown', 'keyUp']) await send('Input.dispatchKeyEvent', { type, key, text: (type === 'keyDown' && text) || undefined, code: key });
    },
    async picture(file) { const shot = await send('Page.captureScreenshot', { format: 'png' }); fs.writeFileSync(file, Buffer.from(shot.result.data, 'base64')); },
  };
}
