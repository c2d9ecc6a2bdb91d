// ---- what is looked at

const look = { event: events, chosen: -1, from: FIRST, to: LAST, top: 0, height: 22, which: 'all', query: '', left: 250, width: 0, tall: 0 };
const fold = new Uint8Array(NODES);
const isFolded = (row) => fold[row] === 1 && look.which === 'all';
let hit = null, hits = 0, list = new Int32Array(NODES), listed = 0;

function choose(e) {
  listed = 0;
  if (look.which === 'all') { for (let row = 0; row < NODES; row = isFolded(row) ? rowEnd[row] : row + 1) list[listed++] = row; return; }
  if (look.which === 'longest') {
    const ran = [];
    for (let t = 0; t < T; t++) if (task.start[t] >= 0) ran.push(t);
    const long = (t) => at(ends(t)) - at(task.start[t]);
    for (const t of ran.sort((a, b) => long(b) - long(a)).slice(0, 100)) list[listed++] = rowOf[t];
    return;
  }
  const keep = new Uint8Array(NODES);
  const wanted = {
    hits: (row) => hit !== null && hit[row] === 1,
    awaited: (row) => { const node = rowNode[row]; return !isScope(node) && task.fork[node] < e && awaitedAt(node, e); },
    trouble: (row) => { const node = rowNode[row]; return isScope(node) ? scope.cancel[node - T] >= 0 && !isNormal(node - T) : task.how[node] === FAILED || task.how[node] === UNAVAILABLE || task.how[node] === NEVER; },
  }[look.which];
  for (let row = 0; row < NODES; row++) if (wanted(row)) for (let r = row; r >= 0 && !keep[r]; r = rowUp[r]) keep[r] = 1;
  for (let row = 0; row < NODES; row++) if (keep[row]) list[listed++] = row;
}

// ---- the chart

const bars = byId('bars'), load = byId('load'), rows = byId('rows'), bar = byId('bar'), tip = byId('tip');
const colour = {};
function colours() { const style = getComputedStyle(document.documentElement); for (const name of ['ground', 'ink', 'soft', 'line', 'chosen', 'open', 'shut', 'cancelled', 'early', 'wait', 'run', 'success', 'failed', 'lost', 'mark', 'shield']) colour[name] = style.getPropertyValue(`--${name}`); }
const RIGHT = 20, TOP = 22;
const inChart = () => look.width - look.left - RIGHT;
const x = (time) => look.left + (time - look.from) / (look.to - look.from) * inChart();
const timeAt = (px) => look.from + (px - look.left) / inChart() * (look.to - look.from);
function sheet(canvas) {
  const ratio = devicePixelRatio || 1, width = canvas.clientWidth, tall = canvas.clientHeight;
  if (canvas.width !== Math.round(width * ratio) || canvas.height !== Math.round(tall * ratio)) { canvas.width = Math.round(width * ratio); canvas.height = Math.round(tall * ratio); }
  const ink = canvas.getContext('2d');
  ink.setTransform(ratio, 0, 0, ratio, 0, 0);
  ink.clearRect(0, 0, width, tall);
  ink.font = '11px system-ui, sans-serif';
  ink.textBaseline = 'middle';
  return { ink, width, tall };
}
function ticks(from, to, width) {
  const raw = (to - from) / Math.max(1, width / 110), power = 10 ** Math.floor(Math.log10(raw));
  const step = Math.max(1, [1, 2, 5, 10].map((times) => times * power).find((size) => size >= raw));
  const found = [];
  for (let time = Math.ceil(from / step) * step; time <= to; time += step) found.push(time);
  return found;
}
function stroke(ink, y, from, to, ink_, high) {
  let a = x(from), b = x(to);
  if (b < look.left || a > look.width) return;
  a = Math.max(a, look.left); b = Math.min(b, look.width);
  ink.fillStyle = ink_;
  ink.fillRect(a, y - high / 2, Math.max(1, b - a), Math.max(1, high));
}
function sign(ink, y, time, text, ink_, aside) {
  const a = x(time);
  if (a < look.left || a > look.width) return;
  ink.fillStyle = ink_;
  ink.fillText(text, a + aside, y);
}
function drawScope(ink, s, y) {
  const large = look.height > 6, high = large ? look.height * .62 : look.height, end = at(ends(T + s)), { open, close, closing, cancel, join, options } = scope;
  stroke(ink, y, at(open[s]), end, close[s] < 0 ? colour.open : colour.shut, high);
  if (cancel[s] >= 0) stroke(ink, y, at(cancel[s]), end, isNormal(s) ? colour.early : colour.cancelled, high);
  if (closing[s] >= 0) stroke(ink, y, at(closing[s]), end, colour.lost, Math.min(3, high));
  if (!large) return;
  if (cancel[s] >= 0) sign(ink, y, at(cancel[s]), isNormal(s) ? '\u00b7' : '\u2716', isNormal(s) ? colour.soft : colour.mark, -4);
  if (join[s] >= 0) sign(ink, y, at(join[s]), '\u25c6', colour.run, -4);
  if (close[s] >= 0) sign(ink, y, at(close[s]), ']', colour.soft, -3);
  if (options[s] & SHIELD) drawShield(ink, x(at(open[s])) + 8, y);
}
function drawShield(ink, a, y) {
  if (a < look.left || a > look.width) return;
  ink.beginPath();
  for (const [across, down] of [[-5, -5], [0, -7], [5, -5], [4, 2], [0, 7], [-4, 2]]) ink.lineTo(a + across, y + down);
  ink.closePath();
  ink.fillStyle = colour.shield; ink.fill();
  ink.strokeStyle = colour.soft; ink.stroke();
}
function drawTask(ink, t, y, row) {
  const large = look.height > 6, high = large ? look.height * .36 : look.height, { fork, start, end, how } = task, last = at(ends(t));
  const shade = end[t] < 0 ? colour.run : [colour.lost, colour.run, colour.run, colour.lost, colour.success, colour.failed][how[t]];
  stroke(ink, y, at(fork[t]), start[t] < 0 ? last : at(start[t]), colour.wait, 1);
  if (start[t] >= 0) stroke(ink, y, at(start[t]), last, shade, high);
  if (!large) return;
  if (isFolded(row) && insideFailed[row]) sign(ink, y, last, '\u2590', colour.failed, -3);
  if (end[t] >= 0 || how[t] === NEVER) sign(ink, y, last, ['\u00d7', '', '', '\u25cb', '\u2713', '\u2717'][how[t]], shade, 2);
}
function drawChart() {
  const { ink, width, tall } = sheet(bars);
  look.width = width; look.tall = tall;
  for (const time of ticks(look.from, look.to, inChart())) {
    const a = Math.round(x(time));
    ink.fillStyle = colour.line; ink.fillRect(a, 18, 1, tall);
    ink.fillStyle = colour.soft; ink.fillText(moment(time, look.to - look.from), a + 3, 10);
  }
  ink.save();
  ink.beginPath(); ink.rect(0, TOP, width, tall - TOP); ink.clip();
  const first = Math.max(0, Math.floor(look.top / look.height)), last = Math.min(listed, Math.ceil((look.top + tall - TOP) / look.height));
  for (let i = first; i < last; i++) {
    const row = list[i], node = rowNode[row], y = TOP + i * look.height - look.top + look.height / 2;
    if (row === look.chosen) { ink.fillStyle = colour.chosen; ink.fillRect(0, y - look.height / 2, width, look.height); }
    ink.globalAlpha = hits && !hit[row] ? .25 : 1;
    if (isScope(node)) drawScope(ink, node - T, y); else drawTask(ink, node, y, row);
    ink.globalAlpha = 1;
  }
  const now = x(reading(look.event));
  if (now >= look.left) { ink.fillStyle = colour.mark; ink.fillRect(now, 0, 1.5, tall); }
  ink.restore();
  drawRows(first, last);
}
// The rows in view as elements: what a screen reader reads, and what keys choose.
const pool = [];
function rowElement(index) {
  if (pool[index]) return pool[index];
  const element = document.createElement('div'), text = document.createElement('span');
  element.setAttribute('role', 'treeitem');
  element.append(text);
  rows.append(element);
  pool[index] = element;
  return element;
}
function drawRows(first, last) {
  const readable = look.height >= 11, shown = readable ? last - first : 0;
  for (let k = 0; k < shown; k++) {
    const row = list[first + k], node = rowNode[row], element = rowElement(k), text = element.firstChild, more = rowEnd[row] > row + 1;
    element.hidden = false;
    element.id = `row${row}`;
    element.dataset.row = row;
    element.style.top = `${(first + k) * look.height - look.top}px`;
    element.style.height = element.style.lineHeight = `${look.height}px`;
    element.setAttribute('aria-level', rowDepth[row] + 1);
    element.setAttribute('aria-posinset', first + k + 1);
    element.setAttribute('aria-setsize', listed);
    element.setAttribute('aria-selected', row === look.chosen);
    if (more) element.setAttribute('aria-expanded', !isFolded(row)); else element.removeAttribute('aria-expanded');
    element.setAttribute('aria-label', `${rowLabel(row)}. ${says(row).join(' ')}`);
    element.className = hits && !hit[row] ? 'pale' : '';
    text.className = isScope(node) ? 'scope' : '';
    text.style.paddingLeft = `${4 + Math.min(rowDepth[row], 12) * 10}px`;
    text.textContent = (more ? (isFolded(row) ? '\u25b8 ' : '\u25be ') : '  ') + rowLabel(row);
  }
  for (let k = shown; k < pool.length; k++) pool[k].hidden = true;
  if (look.chosen >= 0 && readable && byId(`row${look.chosen}`)) rows.setAttribute('aria-activedescendant', `row${look.chosen}`); else rows.removeAttribute('aria-activedescendant');
}
function measure() {
  look.left = matchMedia('(max-width: 760px)').matches ? 150 : 250;
  look.width = bars.clientWidth; look.tall = bars.clientHeight;
  byId('tall').style.height = `${Math.min(listed * look.height + TOP + 8, 1.5e7)}px`;
  look.top = Math.max(0, Math.min(look.top, listed * look.height - look.tall + TOP + 8));
}

// ---- the load: how many tasks ran and waited, counted once for a width

let profile = null;
function profiled(width) {
  if (profile && profile.width === width) return profile;
  const columns_ = Math.max(1, width), runs = new Int32Array(columns_ + 2), waits = new Int32Array(columns_ + 2);
  const column = (time) => Math.max(0, Math.min(columns_, Math.floor((time - FIRST) / (LAST - FIRST) * columns_)));
  for (let t = 0; t < T; t++) {
    const fork = column(at(task.fork[t])), start = task.start[t] < 0 ? -1 : column(at(task.start[t])), end = column(at(ends(t)));
    waits[fork]++;
    if (start < 0) { waits[end + 1]--; continue; }
    waits[start]--; runs[start]++; runs[end + 1]--;
  }
  let run_ = 0, wait = 0, most = 1;
  for (let i = 0; i < columns_; i++) { run_ += runs[i]; wait += waits[i]; runs[i] = run_; waits[i] = wait; most = Math.max(most, run_ + wait); }
  return profile = { width, runs, waits, most };
}
function drawLoad() {
  const { ink, width, tall } = sheet(load), inner = width - look.left - RIGHT, { runs, waits, most } = profiled(Math.round(inner));
  const across = (time) => look.left + (time - FIRST) / (LAST - FIRST) * inner;
  for (let i = 0; i < inner; i++) {
    const up = runs[i] / most * 46, more = waits[i] / most * 46;
    ink.fillStyle = colour.run; ink.fillRect(look.left + i, tall - 2 - up, 1, up);
    ink.fillStyle = colour.soft; ink.fillRect(look.left + i, tall - 2 - up - more, 1, more);
  }
  ink.fillStyle = colour.mark;
  for (const s of cancels) ink.fillRect(across(at(scope.cancel[s])), 0, 1, 7);
  ink.fillStyle = colour.ink; ink.fillText(`at most ${many(most, 'task')} at once`, 8, 24);
  ink.fillStyle = colour.soft; ink.fillText('dark run, grey wait, top: cancels', 8, 42);
  ink.strokeStyle = colour.ink; ink.strokeRect(across(look.from) + .5, 1.5, Math.max(3, across(look.to) - across(look.from) - 1), tall - 3);
  ink.fillStyle = colour.mark; ink.fillRect(across(reading(look.event)), 0, 1.5, tall);
}

// ---- the tree and what the chosen row says

const SHOWN = 300;
function age(node, e) {
  if (!timed) return '';
  const now = reading(e);
  if (isScope(node)) return `, open for ${span(at(begins(node)), now)}`;
  const stage = stageAt(node, e);
  return stage === 'running' ? ` for ${span(at(task.start[node]), now)}` : stage === 'waiting' ? ` for ${span(at(task.fork[node]), now)}` : '';
}
function drawTree() {
  const e = look.event, box = byId('tree'), lines = document.createDocumentFragment();
  count(e);
  let shown = 0, more = 0;
  for (const row of standing(e, true)) {
    if (shown === SHOWN) { more++; continue; }
    const node = rowNode[row], line = document.createElement('div');
    line.setAttribute('role', 'treeitem');
    line.setAttribute('aria-level', rowDepth[row] + 1);
    line.setAttribute('aria-selected', row === look.chosen);
    line.dataset.row = row;
    line.className = isScope(node) ? 'scope' : { 4: 'success', 5: 'failed' }[before(task.end[node], e) ? task.how[node] : 0] ?? '';
    line.textContent = '  '.repeat(rowDepth[row]) + (isScope(node) ? scopeLine(node - T, e) : taskLine(node, e)) + age(node, e);
    lines.append(line);
    shown++;
  }
  box.replaceChildren(lines);
  if (!shown) box.textContent = 'nothing is open';
  if (more) box.append(`\u2026 and ${many(more, 'row')} more`);
  const now = momentAt(e);
  byId('when').textContent = `${timed ? `${moment(reading(e))}, ` : ''}event ${e} of ${events}${run.ticks.length ? `, moment ${now}` : ''}: ${many(counted.running, 'task')} run${counted.running === 1 ? 's' : ''}, ${counted.waiting} wait${counted.waiting === 1 ? 's' : ''}`;
  const slider = byId('event');
  slider.value = e;
  slider.setAttribute('aria-valuetext', byId('when').textContent);
}
function drawSays() {
  const box = byId('says'), row = look.chosen;
  box.replaceChildren();
  const add = (tag, text, shade) => { const element = document.createElement(tag); element.textContent = text; if (shade) element.className = shade; box.append(element); };
  if (row < 0) { add('h2', 'Nothing is chosen'); add('p', 'Choose a row by a click or by the arrow keys. The key ? tells the others.', 'soft'); return; }
  const node = rowNode[row], e = events;
  add('h2', label(node));
  for (const line of says(row)) add('p', line);
  const s = isScope(node) ? node - T : task.scope[node] - run.scopesBefore - 1;
  if (s >= 0 && scope.cancel[s] >= 0) {
    add('p', `${isScope(node) ? 'It' : `Scope ${scopeNumber(s)}`} was ${why(s)}.`, isNormal(s) ? 'soft' : 'mark');
    if (!isScope(node) && task.how[node] === UNAVAILABLE && task.end[node] >= 0) add('p', `It ended ${span(at(scope.cancel[s]), at(task.end[node]))} after that, so its result can\u2019t be read.`);
  }
  if (isScope(node) && isOwn(s)) {
    let reached = 0;
    for (let q = 0; q < S; q++) if (q !== s && scope.source[q] === scopeNumber(s) && scope.cancel[q] >= 0) reached++;
    if (reached) add('p', `It reached ${many(reached, 'other scope')}.`);
  }
  if (!isScope(node) && awaitedAt(node, e)) { add('p', waitsFor(row, e)); for (const line of shieldsAround(row, e)) add('p', line, 'mark'); }
  const around = [];
  for (let r = rowUp[row]; r >= 0; r = rowUp[r]) around.push(label(rowNode[r]));
  if (around.length) add('p', `Inside ${around.join(', in ')}.`, 'soft');
}

// ---- moves

function draw() { drawChart(); drawLoad(); }
function relist() { choose(look.event); measure(); bar.scrollTop = look.top; draw(); }
function go(e) {
  look.event = Math.max(0, Math.min(events, Math.round(e)));
  drawTree();
  if (look.which === 'awaited') relist(); else draw();
}
function show(row) {
  let unfolded = false;
  for (let r = rowUp[row]; r >= 0; r = rowUp[r]) if (fold[r]) { fold[r] = 0; unfolded = true; }
  if (unfolded) { choose(look.event); measure(); }
  const index = list.subarray(0, listed).indexOf(row), y = index * look.height, room = look.tall - TOP;
  if (index >= 0 && (y < look.top || y + look.height > look.top + room)) { look.top = Math.max(0, y - room / 2); measure(); bar.scrollTop = look.top; }
}
function focusTime(from, to) {
  const wide = to - from, view = look.to - look.from;
  if (wide / view * inChart() < 40 && view > wide * 4) { const pad = Math.max(wide, timed ? 4 : 6); look.from = Math.max(FIRST, from - pad); look.to = Math.min(LAST, to + pad); }
  else if (to < look.from || from > look.to) { const middle = (from + to) / 2; look.from = Math.max(FIRST, middle - view / 2); look.to = Math.min(LAST, look.from + view); }
}
function pick(row, seek) {
  look.chosen = row;
  if (row >= 0) { if (seek) focusTime(at(begins(rowNode[row])), at(ends(rowNode[row]))); show(row); }
  drawSays(); drawTree(); draw();
}
function zoom(factor, around) {
  const from = around - (around - look.from) * factor, to = around + (look.to - around) * factor, least = timed ? 2 : 3;
  look.from = Math.max(FIRST, from);
  look.to = Math.min(LAST, Math.max(to, look.from + least));
  draw();
}
function pan(share) {
  const view = look.to - look.from, from = Math.max(FIRST, Math.min(LAST - view, look.from + view * share));
  look.from = from; look.to = from + view;
  draw();
}
function whole() { look.from = FIRST; look.to = LAST; draw(); }
function foldAll(on) {
  for (let row = 0; row < NODES; row++) fold[row] = on && rowEnd[row] > row + 1 && endOf(rowNode[row]) >= 0 && isScope(rowNode[row]) ? 1 : 0;
  byId('fold').setAttribute('aria-pressed', on);
  byId('fold').textContent = on ? 'unfold all' : 'fold closed';
  relist();
}
function turn(row) { if (row >= 0 && rowEnd[row] > row + 1) { fold[row] ^= 1; relist(); } }
function jump(direction) {
  const placed = cancels.map((s) => scope.cancel[s] + 1);
  const found = direction > 0 ? placed.findIndex((e) => e > look.event) : placed.findLastIndex((e) => e < look.event);
  if (found < 0) return;
  const time = at(scope.cancel[cancels[found]]);
  focusTime(time, time);
  go(placed[found]);
  pick(rowOf[T + cancels[found]], false);
}
function search(text) {
  look.query = text.trim().toLowerCase();
  hit = null; hits = 0;
  if (look.query) { const test = searched(look.query); hit = new Uint8Array(NODES); for (let row = 0; row < NODES; row++) if (test(rowNode[row])) { hit[row] = 1; hits++; } }
  byId('hits').textContent = look.query ? many(hits, 'row') : '';
  if (look.which === 'hits') relist(); else draw();
}
function searched(query) {
  const longer = /^>\s*([\d.]+)\s*(ms|s|min)?$/.exec(query), number = /^(task|scope)\s+(\d+)$/.exec(query);
  if (longer) { const limit = longer[1] * ({ s: 1000, min: 60_000 }[longer[2]] ?? 1); return (node) => !isScope(node) && task.start[node] >= 0 && at(ends(node)) - at(task.start[node]) > limit; }
  if (number) return (node) => number[1] === 'task' ? !isScope(node) && taskNumber(node) === +number[2] : isScope(node) && scopeNumber(node - T) === +number[2];
  const words = ['never', 'waiting', 'running', 'unavailable', 'success', 'failed'].map((word) => word.startsWith(query)), names = run.names.map((name) => name.includes(query)), values = run.values.map((value) => value === query);
  return (node) => {
    if (!isScope(node)) return words[task.how[node]] || names[task.name[node]] || task.value[node] >= 0 && values[task.value[node]];
    const s = node - T;
    return joiner(s).startsWith(query) || query.length > 2 && (scope.cancel[s] >= 0 && !isNormal(s) && 'cancelled'.startsWith(query) || (scope.options[s] & SHIELD) > 0 && 'shielded'.startsWith(query));
  };
}
function nextHit(direction) {
  if (!hits) return;
  for (let k = 1; k <= NODES; k++) { const row = ((look.chosen + direction * k) % NODES + NODES) % NODES; if (hit[row]) { pick(row, true); return; } }
}
function along(direction) {
  if (!listed) return;
  const index = list.subarray(0, listed).indexOf(look.chosen);
  pick(list[Math.max(0, Math.min(listed - 1, index < 0 ? (direction > 0 ? 0 : listed - 1) : index + direction))], false);
}

// ---- hands: keys, mouse, wheel and fingers

const KEYS = {
  '/': () => byId('query').focus(), c: () => jump(1), C: () => jump(-1), w: () => pick(deepest(look.event), true),
  ArrowRight: (key) => go(look.event + (key.shiftKey ? Math.max(1, events / 100) : 1)), ArrowLeft: (key) => go(look.event - (key.shiftKey ? Math.max(1, events / 100) : 1)),
  ArrowDown: () => along(1), ArrowUp: () => along(-1), Home: () => go(0), End: () => go(events),
  '+': () => zoom(.7, reading(look.event)), '-': () => zoom(1.4, reading(look.event)), '[': () => pan(-.2), ']': () => pan(.2), 0: whole,
  ' ': () => turn(look.chosen), f: () => foldAll(!fold.some((on) => on)), '?': () => byId('keys').showModal(),
};
addEventListener('keydown', (key) => {
  const { target } = key, typing = target.matches('input[type=search], select, dialog *');
  if (typing || key.ctrlKey || key.metaKey || key.altKey || target.matches('button') && key.key === ' ' || target.id === 'event' && key.key.startsWith('Arrow')) return;
  const act = KEYS[key.key];
  if (act) { key.preventDefault(); act(key); }
});
byId('query').addEventListener('input', (change) => search(change.target.value));
byId('query').addEventListener('keydown', (key) => {
  if (key.key === 'Enter') nextHit(key.shiftKey ? -1 : 1);
  if (key.key === 'Escape') { key.target.value = ''; search(''); rows.focus(); }
});
const on = (id, act) => byId(id).addEventListener('click', act);
on('before', () => jump(-1)); on('after', () => jump(1)); on('back', () => go(look.event - 1)); on('on', () => go(look.event + 1));
on('whole', whole); on('fold', () => foldAll(!fold.some((one) => one))); on('help', () => byId('keys').showModal());
byId('event').addEventListener('input', (change) => go(+change.target.value));
byId('which').addEventListener('change', (change) => { look.which = change.target.value; look.top = 0; relist(); });
byId('height').addEventListener('change', (change) => { const middle = (look.top + look.tall / 2) / look.height; look.height = +change.target.value; look.top = Math.max(0, middle * look.height - look.tall / 2); relist(); });
byId('tree').addEventListener('click', (click) => { const line = click.target.closest('[data-row]'); if (line) pick(+line.dataset.row, true); });
bar.addEventListener('scroll', () => { look.top = bar.scrollTop; drawChart(); });
const chart = byId('chart');
const rowAt = (hand) => { const y = hand.clientY - chart.getBoundingClientRect().top - TOP, index = Math.floor((y + look.top) / look.height); return y > 0 && index < listed ? list[index] : -1; };
const timeOf = (hand) => timeAt(hand.clientX - chart.getBoundingClientRect().left);
chart.addEventListener('wheel', (wheel) => {
  wheel.preventDefault();
  if (wheel.ctrlKey) zoom(Math.exp(wheel.deltaY * .002), timeOf(wheel));
  else if (wheel.shiftKey || Math.abs(wheel.deltaX) > Math.abs(wheel.deltaY)) pan((wheel.deltaX || wheel.deltaY) / inChart());
  else bar.scrollTop += wheel.deltaY;
}, { passive: false });
// Fingers and the mouse: one drags the view, two zoom it, and one that doesn't move chooses.
const hands = new Map();
let drag = null;
const grip = () => { const all = [...hands.values()]; return { x: all.reduce((sum, hand) => sum + hand.clientX, 0) / all.length, y: all.reduce((sum, hand) => sum + hand.clientY, 0) / all.length, wide: all.length > 1 ? Math.abs(all[0].clientX - all[1].clientX) : 0 }; };
const held = () => { drag = hands.size ? { ...grip(), from: look.from, to: look.to, top: look.top, moved: drag?.moved ?? false } : null; };
chart.addEventListener('pointerdown', (hand) => { if (hand.target.closest('#bar')) return; chart.setPointerCapture(hand.pointerId); hands.set(hand.pointerId, hand); held(); });
chart.addEventListener('pointermove', (hand) => {
  if (!hands.has(hand.pointerId)) { hover(hand); return; }
  hands.set(hand.pointerId, hand);
  const now = grip(), scale = drag.wide > 20 && now.wide > 20 ? drag.wide / now.wide : 1, view = Math.min(LAST - FIRST, (drag.to - drag.from) * scale);
  drag.moved ||= Math.abs(now.x - drag.x) + Math.abs(now.y - drag.y) > 4 || scale !== 1;
  if (!drag.moved) return;
  const left = chart.getBoundingClientRect().left, held_ = drag.from + (drag.x - left - look.left) / inChart() * (drag.to - drag.from);
  look.from = Math.max(FIRST, Math.min(LAST - view, held_ - (now.x - left - look.left) / inChart() * view));
  look.to = look.from + view;
  bar.scrollTop = drag.top + drag.y - now.y;
  tip.style.display = 'none';
  draw();
});
for (const kind of ['pointerup', 'pointercancel']) chart.addEventListener(kind, (hand) => {
  if (!hands.delete(hand.pointerId)) return;
  const still = kind === 'pointerup' && drag && !drag.moved && !hands.size;
  held();
  if (!still) return;
  const row = rowAt(hand), inLabels = hand.clientX - chart.getBoundingClientRect().left < look.left;
  rows.focus({ preventScroll: true });
  if (row >= 0 && inLabels && look.which === 'all') turn(row);
  if (row >= 0) pick(row, false);
  if (!inLabels) go(happenedBy(timeOf(hand)));
});
chart.addEventListener('pointerleave', () => { tip.style.display = 'none'; });
function hover(hand) {
  const row = rowAt(hand);
  if (row < 0) { tip.style.display = 'none'; return; }
  tip.textContent = `${label(rowNode[row])}. ${says(row).join(' ')}`;
  tip.style.display = 'block';
  tip.style.left = `${Math.min(hand.clientX + 14, innerWidth - 430)}px`;
  tip.style.top = `${Math.min(hand.clientY + 16, innerHeight - 70)}px`;
}
load.addEventListener('pointerdown', (hand) => {
  const box = load.getBoundingClientRect(), time = (px) => FIRST + Math.max(0, Math.min(1, (px - box.left - look.left) / (box.width - look.left - RIGHT))) * (LAST - FIRST), from = time(hand.clientX);
  load.setPointerCapture(hand.pointerId);
  let dragged = false;
  const move = (next) => { const to = time(next.clientX); if (dragged || Math.abs(to - from) > (LAST - FIRST) / 200) { dragged = true; look.from = Math.min(from, to); look.to = Math.max(from, to, look.from + (timed ? 2 : 3)); draw(); } };
  const up = () => { load.removeEventListener('pointermove', move); load.removeEventListener('pointerup', up); if (!dragged) go(happenedBy(from)); };
  load.addEventListener('pointermove', move);
  load.addEventListener('pointerup', up);
});
addEventListener('resize', () => { measure(); draw(); });
matchMedia('(prefers-color-scheme: dark)').addEventListener('change', () => { colours(); draw(); });

// ---- the first look: a run that hangs at its end, with the deepest task that is awaited

colours();
byId('title').textContent = `${many(T, 'task')} in ${many(S, 'scope')}, ${many(events, 'event')}${timed ? `, ${span(FIRST, at(events))}` : ''}`;
byId('note').textContent = [timed ? '' : 'This run has no times: the way to the right is the order of events, and lengths count events.', NODES ? '' : 'Nothing was opened.'].filter(Boolean).join(' ');
byId('event').max = events;
if (NODES > 300) { for (let row = 0; row < NODES; row++) fold[row] = rowEnd[row] > row + 1 && endOf(rowNode[row]) >= 0 && isScope(rowNode[row]) ? 1 : 0; byId('fold').setAttribute('aria-pressed', true); byId('fold').textContent = 'unfold all'; }
choose(look.event);
measure();
look.chosen = deepest(events);
if (look.chosen >= 0) show(look.chosen);
drawSays(); drawTree(); draw();
window.page = { run, look, go, pick, search, jump, zoom, whole, foldAll, deepest, treeText, rowOf, loaded: performance.now() - began, state: () => ({ rows: NODES, listed, hits, event: look.event, chosen: look.chosen, from: look.from, to: look.to }) };
})();
