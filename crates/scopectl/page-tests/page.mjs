// node page.mjs PROGRAM CHROMIUM [SEEDS]: the page of a run in a browser, beside what the program says of the same scripts.
import { spawnSync } from 'node:child_process';
import fs from 'node:fs';
import os from 'node:os';
import path from 'node:path';
import { browser } from './browser.mjs';
import { requests, wide } from './scripts.mjs';
import { eventsOf } from './events.mjs';

const [program, chromium, seeds = '200'] = process.argv.slice(2);
const top = new URL('../../../', import.meta.url).pathname;
const room = fs.mkdtempSync(path.join(os.tmpdir(), 'pages-'));
const tab = await browser(chromium);
let failed = 0, checked = 0;
const wanted = (told, what) => { checked++; if (!told) { failed++; console.log(`test: the page: ${what}`); } };
const equal = (is, should, what) => wanted(is === should, `${what} is ${JSON.stringify(is)}, not ${JSON.stringify(should)}`);

const scopectl = (words, input) => spawnSync(program, words, { input, maxBuffer: 1 << 28 }).stdout.toString();
// The tree of the script up to a line, without its times: a page says ages apart.
const treeOf = (text, line) => scopectl(['tree', '--quiet', '--lenient'], text.split('\n').slice(0, line).filter((one) => !/^\s*# at \d+\s*$/.test(one)).map((one) => `${one}\n`).join(''));

async function open(name, text) {
  const file = path.join(room, 'page.html'), page = scopectl(['page', '--quiet', '--lenient'], text);
  fs.writeFileSync(file, page);
  const ms = await tab.load(file);
  quiet(name);
  return { bytes: Buffer.byteLength(page), ms };
}
function quiet(name) {
  equal(tab.complaints.join('; '), '', `what the console says of ${name}`);
  equal(tab.requests.filter((url) => !url.startsWith('file://') || !url.endsWith('/page.html')).join(' '), '', `what ${name} asks for`);
}

// ---- the tree at an event is that of the script up to there

async function sameTree(name, text, run, event) {
  const line = event ? run.events[event - 1].line : run.line;
  const [is, shown] = await tab.run(`page.go(${event}); [page.treeText(${event}), [...document.querySelectorAll('#tree [role=treeitem]')].map((line) => line.textContent).join('\\n')]`);
  const should = treeOf(text, line);
  equal(is, should, `the tree of ${name} at event ${event}`);
  equal(shown.replace(/(, open|(: running|: waiting)) for .*$/gm, '$2'), should.split('\n').slice(1, -1).filter((one) => one !== 'nothing is open').join('\n'), `the lines in view of ${name} at event ${event}`);
}

// ---- rows, search, keys and the slider

const ROWS = `[...document.querySelectorAll('#rows [role=treeitem]')].filter((row) => !row.hidden)`;
const slide = (event) => `(() => { const slider = document.getElementById('event'); slider.value = ${event}; slider.dispatchEvent(new Event('input', { bubbles: true })); return page.state().event; })()`;
const choose = (which) => `(() => { const list = document.getElementById('which'); list.value = '${which}'; list.dispatchEvent(new Event('change', { bubbles: true })); return page.state().listed; })()`;
const find = (text) => `(() => { const query = document.getElementById('query'); query.value = '${text}'; query.dispatchEvent(new Event('input', { bubbles: true })); return page.state().hits; })()`;

async function looks(name, text, run) {
  const ids = run.events.filter((event) => event.words[0] === 'fork').map((event) => event.values[0]);
  const states = scopectl(['replay', '--quiet'], text + ids.map((k) => `state ${k}\n`).join('')).split('\n').slice(0, -1).slice(-ids.length || Infinity);
  const scopes = run.events.filter((event) => event.words[0] === 'open').length;
  equal(await tab.run('page.state().rows'), ids.length + scopes, `rows of ${name}`);
  // (behind the last row there is a margin, and the first may be in view in part)
  const fit = Math.min(await tab.run('page.state().listed'), Math.ceil(await tab.run(`(document.getElementById('chart').clientHeight - 22) / page.look.height`))), shown = await tab.run(`${ROWS}.length`);
  wanted(Math.abs(shown - fit) <= 1, `rows in view of ${name} are ${shown}, not ${fit}`);
  wanted(await tab.run(`${ROWS}.every((row) => row.getAttribute('aria-label') && row.getAttribute('aria-level') > 0 && row.getAttribute('aria-setsize') > 0)`), `rows of ${name} don't say what they are`);
  equal(await tab.run(find('failed')), states.filter((state) => state.startsWith('state failed')).length, `tasks of ${name} found by failed`);
  if (ids.length) equal(await tab.run(find(`task ${ids[0]}`)), 1, `tasks of ${name} found by their number`);
  await tab.run(find(''));
  for (const which of ['hits', 'awaited', 'trouble', 'longest', 'all']) await tab.run(choose(which));
  equal(await tab.run(slide(0)), 0, `the event of ${name} by the slider`);
  equal(await tab.run(slide(run.events.length)), run.events.length, `the event of ${name} by the slider`);
  quiet(name);
}

async function keys(name, run) {
  const state = () => tab.run('page.state()');
  await tab.run(`document.getElementById('rows').focus()`);
  await tab.press('End');
  await tab.press('ArrowLeft');
  equal((await state()).event, run.events.length - 1, `${name} behind the arrow to the left`);
  await tab.press('ArrowRight');
  equal((await state()).event, run.events.length, `${name} behind the arrow to the right`);
  await tab.press('Home');
  equal((await state()).event, 0, `${name} behind Home`);
  await tab.press('End');
  await tab.press('w');
  equal((await state()).chosen, await tab.run('page.deepest(page.state().event)'), `the row of ${name} behind w`);
  await tab.press('ArrowUp'); await tab.press('ArrowUp'); await tab.press('ArrowDown');
  wanted((await tab.run(`document.querySelector('#rows [aria-selected=true]')?.id`)) === `row${(await state()).chosen}`, `${name}: the chosen row is not told`);
  await tab.press('+');
  const near = await state();
  await tab.press('0');
  const all = await state();
  wanted(near.to - near.from <= all.to - all.from, `${name} is not nearer behind +`);
  await tab.press('f');
  wanted((await state()).listed <= all.listed, `${name} has more rows behind f`);
  await tab.press('f'); await tab.press(' '); await tab.press('c'); await tab.press('C'); await tab.press('['); await tab.press(']'); await tab.press('-');
  await tab.press('/', null);
  equal(await tab.run('document.activeElement.id'), 'query', `what has the keys of ${name} behind /`);
  await tab.press('a'); await tab.press('Enter', '\r'); await tab.press('Escape', null);
  equal(await tab.run('document.activeElement.id'), 'rows', `what has the keys of ${name} behind Escape`);
  await tab.press('?');
  wanted(await tab.run(`document.getElementById('keys').open`), `${name} doesn't tell its keys`);
  await tab.run(`document.getElementById('keys').close()`);
  quiet(name);
}

// ---- what is to be said of a run that hangs

async function hangs() {
  const text = fs.readFileSync(path.join(top, 'examples/hung'), 'utf8');
  await open('hung', text);
  const said = await tab.run(`document.getElementById('says').textContent`);
  for (const words of ['task 5 backup', 'ran 3.13 s and still runs', 'waits in scope 3 for task 5 backup']) wanted(said.includes(words), `of a run that hangs it doesn't say "${words}": ${said}`);
  wanted((await tab.run(`document.getElementById('tree').textContent`)).includes('task 5 backup: running for 3.13 s'), 'the tree of a run that hangs has no age');
  const stuck = fs.readFileSync(path.join(top, 'examples/stuck'), 'utf8');
  await open('stuck', stuck);
  wanted((await tab.run(`document.getElementById('says').textContent`)).includes('The shield of scope 3 holds the cancel of scope 2'), 'the shield that holds a cancel is not told');
  wanted((await tab.run(`document.getElementById('note').textContent`)).includes('no times'), 'a run without times is not told');
  await tab.view(true);
  const dark = await tab.run(`getComputedStyle(document.body).backgroundColor`);
  await tab.view(false, 390, 844);
  wanted(dark !== await tab.run(`getComputedStyle(document.body).backgroundColor`), 'it is as light in the dark');
  equal(await tab.run('document.documentElement.scrollWidth <= innerWidth'), true, 'whether it fits a small screen');
  await tab.view();
  quiet('stuck');
}

// ---- large runs: how large, and how long a step takes

async function large(name, text, mostBytes, mostStep) {
  const { bytes, ms } = await open(name, text);
  const steps = await tab.run(`(() => { const took = []; for (let k = 1; k < 20; k++) { const from = performance.now(); page.go(page.run.events * (k * 7 % 20) / 20); document.body.offsetHeight; took.push(performance.now() - from); } return took.sort((a, b) => a - b); })()`);
  const search = await tab.run(`(() => { const from = performance.now(); page.search('failed'); return performance.now() - from; })()`);
  const step = Math.round(steps[9]);
  console.log(`${name}: ${Math.round(bytes / 1000)} kB, loads in ${Math.round(ms)} ms, a step takes ${step} ms, at most ${Math.round(steps[18])}, a search ${Math.round(search)}`);
  wanted(bytes <= mostBytes, `${name} has ${bytes} bytes`);
  // Beside other work on a machine a step may take longer: the goal is told above, and three times as much is a fault.
  wanted(step <= 3 * mostStep, `a step of ${name} takes ${step} ms`);
  const run = eventsOf(program, text);
  await sameLarge(name, text, run, run.events.length);
  await sameLarge(name, text, run, Math.floor(run.events.length / 2));
}
async function sameLarge(name, text, run, event) {
  equal(await tab.run(`page.treeText(${event})`) === treeOf(text, run.events[event - 1].line), true, `whether ${name} has the tree at event ${event}`);
  quiet(name);
}

for (const file of fs.readdirSync(path.join(top, 'examples')).filter((one) => one.endsWith('.replies'))) {
  const name = file.slice(0, -8), text = fs.readFileSync(path.join(top, 'examples', name), 'utf8'), run = eventsOf(program, text);
  await open(name, text);
  await looks(name, text, run);
  await keys(name, run);
  for (let event = 0; event <= run.events.length; event++) await sameTree(name, text, run, event);
}
await hangs();
for (let seed = 1; seed <= +seeds; seed++) {
  const name = `script ${seed}`, text = scopectl(['generate', '--seed', `${seed}`, '--lines', `${40 + seed % 7 * 40}`]), run = eventsOf(program, text), { length } = run.events;
  await open(name, text);
  for (const event of new Set([0, Math.floor(length / 4), Math.floor(length / 2), Math.floor(3 * length / 4), length])) await sameTree(name, text, run, event);
  if (seed % 20 === 0) await looks(name, text, run);
}
await large('a page of 4,992 tasks', requests(5000), 400_000, 70);
await large('a page of 65,504 tasks', requests(65520), 1_800_000, 70);
await large('a page of 65,536 tasks in one scope', wide(65536), 1_800_000, 150);

await tab.end();
fs.rmSync(room, { recursive: true, force: true });
console.log(`the page in a browser: ${checked} checks, ${failed} failed`);
process.exit(failed ? 1 : 0);
