// What a script did, event by event, by the replies of `scopectl replay`.
import { spawnSync } from 'node:child_process';

const QUERIES = new Set(['state', 'stage', 'result', 'fault', 'cause', 'until', 'counts', 'get']);
const MOST = 1 << 28;

function replay(program, text) {
  const run = spawnSync(program, ['replay', '--json', '--quiet', '--lenient'], { input: text, maxBuffer: MOST });
  const plain = run.status === 2 ? spawnSync(program, ['replay', '--json', '--quiet'], { input: text, maxBuffer: MOST }) : run;
  return plain.stdout.toString().split('\n').slice(0, -1).map((line) => JSON.parse(line));
}
const lines = (text) => text.split('\n').slice(0, -1);
const isCommand = (line) => line.trim() !== '' && !line.trim().startsWith('#');

// The events of a script: what each accepted line did, and after which line it was.
export function eventsOf(program, text) {
  const replies = replay(program, text);
  let run = { events: [], times: [], last: 0, timed: false, scopesBefore: 0, tasksBefore: 0, moment: '0', line: 0 }, next = 0, scopes = 0, tasks = 0, now = 0, moment = '0';
  const all = lines(text);
  for (let i = 0; i < all.length; i++) {
    const words = all[i].trim().split(/\s+/);
    if (words.length === 3 && words[0] === '#' && words[1] === 'at' && /^\d+$/.test(words[2])) { now = run.last = +words[2]; run.timed = true; }
    if (!isCommand(all[i])) continue;
    const { reply, values = [] } = replies[next++];
    if (reply === 'refused' || reply === 'already' || QUERIES.has(words[0])) continue;
    if (words[0] === 'retire') { run = { ...run, events: [], times: [], scopesBefore: scopes, tasksBefore: tasks, moment, line: i + 1 }; continue; }
    if (words[0] === 'open') scopes = values[0];
    if (words[0] === 'fork') tasks = values[0];
    if (words[0] === 'tick') moment = words[1];
    run.events.push({ words, values, line: i + 1 });
    run.times.push(now);
  }
  return run;
}
