// Scripts of many tasks, with times.

// Requests side by side, each a scope with calls in scopes of their own; some fail, one in the end hangs.
export function requests(tasks) {
  const out = ['# at 0', 'open 0 await'], names = ['prices', 'stock', 'images', 'taxes', 'ads', 'audit', 'mirror', 'backup'];
  let task = 0, scope = 1, now = 0, seed = 7; // each request: itself, 23 calls, and 8 calls of the first of these
  const random = (below) => { seed = (seed * 1103515245 + 12345) % 2147483648; return Math.floor(seed / 65536) % below; };
  const each = 32, requests_ = Math.floor(tasks / each);
  for (let r = 0; r < requests_; r++) {
    now += 1 + random(9);
    out.push(`# at ${now}`, `fork 0 1 request`);
    const own = ++task;
    out.push(`start ${own}`, `open ${own} ${r % 5 ? 'all' : 'any'} deadline=${now + 500}`);
    const outer = ++scope, calls = [];
    for (let c = 0; c < 23; c++) { out.push(`fork ${own} ${outer} ${names[(r + c) % 8]}`); calls.push(++task); }
    for (const k of calls) out.push(`start ${k}`);
    out.push(`open ${calls[0]} await-ok${r % 7 ? '' : ' shield'}`);
    const inner = ++scope, more = [];
    for (let c = 0; c < 8; c++) { out.push(`fork ${calls[0]} ${inner} ${names[(r + c + 3) % 8]}`); more.push(++task); }
    now += random(5);
    out.push(`# at ${now}`);
    for (const k of more) out.push(`start ${k}`);
    for (const k of more) { now += random(3); out.push(`# at ${now}`, random(100) ? `ok ${k} ${random(50)}` : `fail ${k} down`); }
    out.push(`join ${calls[0]} ${inner}`, `close ${calls[0]} ${inner}`, `closed ${calls[0]} ${inner}`);
    if (r === requests_ - 1) break;
    for (const k of calls) { now += random(3); out.push(`# at ${now}`, random(300) ? `ok ${k} ${random(50)}` : `fail ${k} timeout`); }
    out.push(`join ${own} ${outer}`, `close ${own} ${outer}`, `closed ${own} ${outer}`, `ok ${own} done`);
  }
  out.push(`# at ${now + 3000}`);
  return out.join('\n') + '\n';
}

// One scope of so many tasks; all but some end.
export function wide(tasks) {
  const out = ['# at 0', 'open 0 await'];
  for (let k = 1; k <= tasks; k++) out.push(`fork 0 1 job-${k % 100}`);
  for (let k = 1; k <= tasks; k++) { if (k % 64 === 0) out.push(`# at ${k}`); out.push(`start ${k}`); }
  for (let k = 1; k <= tasks; k++) { if (k % 64 === 0) out.push(`# at ${tasks + k}`); if (k % 1000) out.push(k % 97 ? `ok ${k} ${k % 30}` : `fail ${k} down`); }
  return out.join('\n') + '\n';
}
