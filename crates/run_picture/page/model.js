'use strict';
(() => {
const began = performance.now();
const byId = (id) => document.getElementById(id);

// ---- the columns, as FORMAT.md says

function columns(text) {
  const [words, values, joiners, digits] = text.split('\n');
  let at = 0;
  // A number, exactly: beyond 2^53 as a BigInt, which is only ever shown.
  const number = () => {
    let sum = 0, unit = 1, from = at;
    for (;;) {
      const code = digits.charCodeAt(at++);
      sum += (code < 95 ? code - 63 : code - 95) * unit;
      if (code < 95) break;
      unit *= 32;
    }
    if (sum <= Number.MAX_SAFE_INTEGER) return sum;
    let exact = 0n;
    for (let i = at - 1; i >= from; i--) exact = exact * 32n + BigInt((digits.charCodeAt(i) - 63) % 32);
    return exact;
  };
  const step = (from) => { const code = number(); return code % 2 ? from - (code + 1) / 2 : from + code / 2; };
  const far = (from) => { const code = number(); return code ? from + code - 1 : -1; };
  const numbers = (count) => new Int32Array(count);
  const [tasks, scopes, events, times, tasksBefore, scopesBefore, moment] = Array.from({ length: 7 }, number);
  const run = { names: words.split(','), values: values.split(','), joiners: joiners.split(','), events, tasks, scopes, tasksBefore, scopesBefore, moment };

  run.times = new Float64Array(times);
  for (let i = 0, last = 0; i < times; i++) run.times[i] = last = step(last);

  const task = run.task = {};
  for (const column of ['scope', 'forker', 'fork', 'name', 'start', 'end', 'how', 'value']) task[column] = numbers(tasks);
  for (let i = 0, scope = 0, forker = 0, fork = 0; i < tasks; i++) {
    task.scope[i] = scope = step(scope);
    task.forker[i] = forker = step(forker);
    task.fork[i] = fork = step(fork);
    task.name[i] = number() - 1;
    task.start[i] = far(fork);
    task.end[i] = far(fork);
    task.how[i] = number();
    task.value[i] = number() - 1;
  }

  const scope = run.scope = { deadline: [] };
  for (const column of ['owner', 'parent', 'open', 'options', 'join', 'closing', 'close', 'cancel', 'source', 'cause']) scope[column] = numbers(scopes);
  for (let i = 0, owner = 0, parent = 0, open = 0; i < scopes; i++) {
    scope.owner[i] = owner = step(owner);
    scope.parent[i] = parent = step(parent);
    scope.open[i] = open = step(open);
    scope.options[i] = number();
    scope.deadline[i] = number();
    for (const column of ['join', 'closing', 'close', 'cancel']) scope[column][i] = far(open);
    const source = number();
    scope.source[i] = source ? scopesBefore + 1 + i + 1 - source : 0;
    scope.cause[i] = number();
  }

  run.moves = new Map();
  run.ticks = [];
  while (at < digits.length) {
    const place = number(), kind = number();
    if (kind === 0) { run.ticks.push({ place, moment: number() }); continue; }
    const of = number(), deadline = number();
    if (!run.moves.has(of)) run.moves.set(of, []);
    run.moves.get(of).push({ place, deadline: kind === 1 ? null : deadline });
  }
  return run;
}

const run = columns(byId('run').textContent);
const { task, scope, events } = run;
const timed = run.times.length > 0;
const taskNumber = (t) => run.tasksBefore + 1 + t;
const scopeNumber = (s) => run.scopesBefore + 1 + s;

// ---- words

const CAUSES = ['a call on', 'the close of', 'the joiner of', 'the deadline of'];
const ENDS = ['unavailable', '', '', 'unavailable', 'success', 'failed'];
const SHIELD = 1, MOVE_ON = 2, DEADLINE = 4;
const NEVER = 0, WAITS = 1, RUNS = 2, UNAVAILABLE = 3, SUCCESS = 4, FAILED = 5;
const CLOSE = 1, JOINER = 2;
const many = (count, word) => `${count.toLocaleString('en')} ${word}${count === 1 ? '' : 's'}`;
const joiner = (s) => run.joiners[s];
const actor = (number) => number ? `task ${number}` : 'main';
const taskName = (t) => `task ${taskNumber(t)} ${run.names[task.name[t]]}`;

function span(from, to) {
  const long = to - from;
  if (!timed) return many(long, 'event');
  if (long < 1000) return `${long} ms`;
  if (long < 60_000) return `${(long / 1000).toFixed(long < 10_000 ? 2 : 1)} s`;
  const minutes = Math.floor(long / 60_000);
  return minutes < 60 ? `${minutes} min ${Math.floor(long % 60_000 / 1000)} s` : `${Math.floor(minutes / 60)} h ${minutes % 60} min`;
}
function moment(at, width) {
  if (!timed) return `event ${at}`;
  if (at < 1000) return `${at} ms`;
  return width !== undefined && width < 2000 ? `${(at / 1000).toFixed(3)} s` : span(0, at);
}

// ---- time: the reading at a place, or its event's number, from 1

const at = (place) => timed ? run.times[Math.min(place, events)] : Math.min(place, events) + 1;
const FIRST = timed ? run.times[0] : 1, LAST = Math.max(at(events), FIRST + 1);
const reading = (happened) => timed ? (happened >= events ? run.times[events] : run.times[Math.max(0, happened - 1)]) : happened;
function happenedBy(time) {
  let low = 0, high = events;
  while (low < high) { const middle = (low + high + 1) >> 1; if (at(middle - 1) <= time) low = middle; else high = middle - 1; }
  return low;
}

// ---- rows: tasks first and then scopes are nodes; a row for each, in the order of the tree

const T = run.tasks, S = run.scopes, NODES = T + S;
const isScope = (node) => node >= T;
function above(node) {
  if (!isScope(node)) { const s = task.scope[node] - run.scopesBefore - 1; return s >= 0 && s < S ? T + s : NODES; }
  const s = node - T, owner = scope.owner[s], p = scope.parent[s] - run.scopesBefore - 1;
  if (p >= 0 && scope.owner[p] === owner) return T + p;
  const t = owner - run.tasksBefore - 1;
  return t >= 0 && t < T ? t : NODES;
}
const rowNode = new Int32Array(NODES), rowDepth = new Uint16Array(NODES), rowEnd = new Int32Array(NODES), rowUp = new Int32Array(NODES), rowOf = new Int32Array(NODES);
(function place() {
  const child = new Int32Array(NODES + 1).fill(-1), next = new Int32Array(NODES).fill(-1);
  for (let node = NODES - 1; node >= 0; node--) { const up = above(node); next[node] = child[up]; child[up] = node; }
  const path = [];
  let row = 0, node = child[NODES];
  while (node >= 0 || path.length) {
    if (node < 0) { const up = path.pop(); rowEnd[up] = row; node = next[rowNode[up]]; continue; }
    rowNode[row] = node; rowOf[node] = row; rowDepth[row] = path.length; rowUp[row] = path.length ? path[path.length - 1] : -1;
    path.push(row++);
    node = child[node];
  }
})();
const begins = (node) => isScope(node) ? scope.open[node - T] : task.fork[node];
const endOf = (node) => isScope(node) ? scope.close[node - T] : task.how[node] === NEVER && task.end[node] < 0 ? task.fork[node] : task.end[node];
const ends = (node) => { const end = endOf(node); return end < 0 ? events : end; };
const inside = new Int32Array(NODES), insideFailed = new Int32Array(NODES);
for (let row = NODES - 1; row >= 0; row--) {
  const up = rowUp[row], node = rowNode[row];
  if (up >= 0) { inside[up] += inside[row] + !isScope(node); insideFailed[up] += insideFailed[row] + (!isScope(node) && task.how[node] === FAILED); }
}

// ---- what is so after so many events: comparisons alone

const before = (place, e) => place >= 0 && place < e;
function stageAt(t, e) {
  if (task.how[t] === NEVER && (task.end[t] < 0 || task.end[t] < e)) return 'never';
  if (before(task.end[t], e)) return 'finished';
  return before(task.start[t], e) ? 'running' : 'waiting';
}
const awaitedAt = (t, e) => { const stage = stageAt(t, e); return stage === 'running' || stage === 'waiting'; };
const openAt = (s, e) => scope.open[s] < e && !before(scope.close[s], e);
function deadlineAt(s, e) {
  let deadline = scope.options[s] & DEADLINE ? scope.deadline[s] : null;
  for (const move of run.moves.get(scopeNumber(s)) ?? []) { if (move.place >= e) break; deadline = move.deadline; }
  return deadline;
}
function momentAt(e) {
  let found = run.moment;
  for (const tick of run.ticks) { if (tick.place >= e) break; found = tick.moment; }
  return found;
}
// By scope, how many tasks were forked, and how many of them wait or run.
const counted = { forked: new Int32Array(S), awaited: new Int32Array(S), running: 0, waiting: 0 };
function count(e) {
  const { forked, awaited } = counted;
  forked.fill(0); awaited.fill(0); counted.running = counted.waiting = 0;
  for (let t = 0; t < T && task.fork[t] < e; t++) {
    const s = task.scope[t] - run.scopesBefore - 1;
    if (s < 0) continue;
    forked[s]++;
    const end = task.end[t];
    if (task.how[t] === NEVER ? end >= e : end < 0 || end >= e) {
      awaited[s]++;
      if (before(task.start[t], e)) counted.running++; else counted.waiting++;
    }
  }
}

// ---- why

const cause = (s) => `${CAUSES[scope.cause[s]]} scope ${scope.source[s]}`;
// A joiner that has what it waits for, and the close of a joined scope, are normal ends.
function isNormal(s) {
  const source = scope.source[s] - run.scopesBefore - 1;
  if (source < 0) return false;
  if (scope.cause[s] === CLOSE) return scope.join[source] >= 0 && scope.join[source] < scope.cancel[s];
  return scope.cause[s] === JOINER && /^(any|until:ok|until:sum)/.test(joiner(source));
}
const isOwn = (s) => scope.cancel[s] >= 0 && scope.source[s] === scopeNumber(s);
const cancels = [];
for (let s = 0; s < S; s++) if (isOwn(s) && !isNormal(s)) cancels.push(s);
cancels.sort((a, b) => scope.cancel[a] - scope.cancel[b]);

// The task by whose end the joiner of the scope cancelled it, at the place.
function firedBy(s, place) {
  for (let t = 0; t < T && task.fork[t] <= place; t++) if (task.end[t] === place && task.scope[t] === scopeNumber(s)) return t;
  return -1;
}
function why(s) {
  const source = scope.source[s] - run.scopesBefore - 1, place = scope.cancel[s];
  let text = `${isNormal(s) ? 'ended' : 'cancelled'} by ${cause(s)}`;
  if (source < 0) return text;
  if (scope.cause[s] === JOINER) {
    const t = firedBy(source, scope.cancel[source]);
    if (t >= 0) text += ` (${joiner(source)}), as ${taskName(t)} ${task.how[t] === FAILED ? 'failed' : 'succeeded'}`;
  }
  if (place === scope.open[s]) return `${text}: it was so as it was opened`;
  return `${text}, at ${moment(at(place))}`;
}

// The deepest task that is awaited then; of those the one that began first.
function deepest(e) {
  let found = -1;
  for (let row = 0; row < NODES; row++) {
    const node = rowNode[row];
    if (isScope(node) || task.fork[node] >= e || !awaitedAt(node, e)) continue;
    if (found < 0 || rowDepth[row] > rowDepth[found] || rowDepth[row] === rowDepth[found] && begins(node) < begins(rowNode[found])) found = row;
  }
  return found;
}
function waitsFor(row, e) {
  const path = [];
  for (let r = row; r >= 0; r = rowUp[r]) path.unshift(rowNode[r]);
  const words = [];
  for (const node of path) words.push(isScope(node) ? `${words.length ? ', which' : 'main'} waits in scope ${scopeNumber(node - T)}` : ` for ${taskName(node)}`);
  const t = rowNode[row], stage = stageAt(t, e), since = stage === 'running' ? task.start[t] : task.fork[t];
  return words.join('').replace(/(waits in scope \d+), which waits in scope/g, '$1, and in scope') + `, which ${stage === 'running' ? 'runs' : 'waits for its start'} since ${moment(at(since))}, for ${span(at(since), reading(e))}.`;
}
function shieldsAround(row, e) {
  const said = [];
  for (let r = row; r >= 0; r = rowUp[r]) {
    if (!isScope(rowNode[r])) continue;
    const s = rowNode[r] - T, p = scope.parent[s] - run.scopesBefore - 1;
    if (scope.options[s] & SHIELD && p >= 0 && before(scope.cancel[p], e) && !before(scope.cancel[s], e)) said.push(`The shield of scope ${scopeNumber(s)} holds the cancel of scope ${scopeNumber(p)}, which was ${why(p)}.`);
  }
  return said;
}

// ---- what a row says

const label = (node) => isScope(node) ? `scope ${scopeNumber(node - T)}` : taskName(node);
function taskSays(t) {
  const said = [`Forked by ${actor(task.forker[t])} in scope ${task.scope[t]}, at ${moment(at(task.fork[t]))}.`];
  const { start, end, how } = task;
  if (how[t] === NEVER) said.push(end[t] < 0 ? 'It never starts: its scope was cancelled before.' : `It never starts: it got no thread, at ${moment(at(end[t]))}.`);
  else if (start[t] < 0) said.push(`It waits for its start, for ${span(at(task.fork[t]), at(events))}.`);
  else if (end[t] < 0) said.push(`It waited ${span(at(task.fork[t]), at(start[t]))}, ran ${span(at(start[t]), at(events))} and still runs.`);
  else {
    const value = task.value[t] < 0 ? '' : ` (${run.values[task.value[t]]})`;
    said.push(`It waited ${span(at(task.fork[t]), at(start[t]))} and ran ${span(at(start[t]), at(end[t]))}, from ${moment(at(start[t]))} to ${moment(at(end[t]))}: ${ENDS[how[t]]}${value}.`);
  }
  return said;
}
function scopeSays(s) {
  const { open, close, closing, join, options } = scope;
  const deadline = deadlineAt(s, events);
  const said = [`Of ${actor(scope.owner[s])}, joins ${joiner(s)}${deadline === null ? '' : `, deadline ${deadline}${options[s] & MOVE_ON ? ' to move on' : ''}`}${options[s] & SHIELD ? ', shielded' : ''}.`];
  const last = close[s] < 0 ? `open for ${span(at(open[s]), at(events))}` : `${span(at(open[s]), at(close[s]))} until ${moment(at(close[s]))}`;
  said.push(`Opened at ${moment(at(open[s]))}, ${last}.`);
  if (join[s] >= 0) said.push(`Joined at ${moment(at(join[s]))}.`);
  if (closing[s] >= 0 && close[s] < 0) said.push(`Closing since ${moment(at(closing[s]))}.`);
  return said;
}
const says = (row) => isScope(rowNode[row]) ? scopeSays(rowNode[row] - T) : taskSays(rowNode[row]);
function rowLabel(row) {
  const node = rowNode[row], short = label(node);
  return isFolded(row) ? `${short}, ${many(inside[row], 'task')} inside${insideFailed[row] ? `, ${insideFailed[row]} failed` : ''}` : short;
}

// ---- the tree at an event, in the words of `scopectl tree`

function scopeLine(s, e) {
  const deadline = deadlineAt(s, e), { options } = scope;
  return `scope ${scopeNumber(s)} ${before(scope.closing[s], e) ? 'closing' : 'open'}, of ${actor(scope.owner[s])}, joins ${joiner(s)}`
    + (before(scope.join[s], e) ? ', joined' : '')
    + (deadline === null ? '' : `, deadline ${deadline}${options[s] & MOVE_ON ? ' to move on' : ''}`)
    + (options[s] & SHIELD ? ', shielded' : '')
    + (before(scope.cancel[s], e) ? `, cancelled by ${cause(s)}` : '')
    + `, awaits ${counted.awaited[s]} of ${counted.forked[s]}`;
}
function taskLine(t, e) {
  const stage = stageAt(t, e);
  return `${taskName(t)}: ${stage === 'never' ? `never started, ${ENDS[NEVER]}` : stage === 'finished' ? `finished, ${ENDS[task.how[t]]}` : stage}`;
}
// The rows that are open after e events. Of a scope with many tasks those that have ended are left out, if `few`.
function* standing(e, few) {
  for (let row = 0; row < NODES;) {
    const node = rowNode[row];
    if (begins(node) >= e || isScope(node) && !openAt(node - T, e)) { row = rowEnd[row]; continue; }
    if (few && !isScope(node) && counted.forked[task.scope[node] - run.scopesBefore - 1] > 60 && !awaitedAt(node, e)) { row = rowEnd[row]; continue; }
    yield row;
    row++;
  }
}
function treeText(e) {
  count(e);
  const lines = [`moment ${momentAt(e)}`];
  for (const row of standing(e, false)) { const node = rowNode[row]; lines.push('  '.repeat(rowDepth[row]) + (isScope(node) ? scopeLine(node - T, e) : taskLine(node, e))); }
  if (lines.length === 1) lines.push('nothing is open');
  return lines.join('\n') + '\n';
}
