"""All that happened in a run is in its picture and in its trace, once, and nothing else: each band and bar with its state, each
mark, arrow and slice; and folded rows count each task once. What is to be there comes from the script and its replies alone, which tests compare with the rules.

    python3 crates/scopectl/drawn.py PROGRAM SEEDS SCRIPT..     for so many random scripts, and for these
"""

import json
import re
import subprocess
import sys
from collections import Counter


def says(program, words, lines=()):
    text = "".join(line + "\n" for line in lines)
    return subprocess.run([program, *words], input=text, stdout=subprocess.PIPE, text=True).stdout


class Run:
    """What there is since the last retirement: scopes and tasks by number, and the marks of events."""

    def __init__(self, program, lines):
        self.scopes, self.tasks, self.marks, self.ticks, self.events, self.stacks = {}, {}, [], [], 0, {0: []}
        commands = [line for line in lines if line.strip() and not line.startswith("#")]
        # Behind each line each scope is asked for its cause, and at the end each task for its state.
        replies = says(program, ["replay", "--quiet"], commands).splitlines()
        asked, known = [], []
        for line, reply in zip(commands, replies):
            known = [] if reply.startswith("retired ") else known + reply.split()[1:] if reply.startswith("scope ") else known
            asked.append([line] + [f"cause {scope}" for scope in known])
        tasks = [reply.split()[1] for reply in replies if reply.startswith("task ")]
        asked.append([f"state {task}" for task in tasks])
        answers = iter(says(program, ["replay", "--quiet"], sum(asked, [])).splitlines())
        for line, *causes in asked[:-1]:
            self.happens(line.split(), next(answers).split())
            for cause in causes:
                self.is_cancelled(int(cause.split()[1]), next(answers).split())
        for task, state in zip(tasks, answers):
            if int(task) in self.tasks:
                self.tasks[int(task)]["state"] = state.split()[-1]

    def is_cancelled(self, number, told):
        scope = self.scopes[number]
        if told[0] == "cancelled" and "cancelled" not in scope:
            scope["cancelled"], scope["from"], scope["kind"] = self.events, int(told[1]), told[2]

    def happens(self, words, told):
        word = words[0]
        if told[0] in ("refused", "already") or word in ("state", "stage", "result", "fault", "cause", "until", "counts", "get"):
            return
        if word == "retire":
            self.scopes, self.tasks, self.marks, self.ticks, self.events = {}, {}, [], [], 0
            return
        self.events += 1
        at, numbers = self.events, [int(it) for it in words[1:3] if it.isdigit()]
        if word == "open":
            joiner = [it for it in words[2:] if not re.match("deadline=|shield$|move-on$", it)] or ["await-ok"]
            options = [it for form in ("deadline=", "move-on", "shield") for it in words[2:] if it.startswith(form)]
            stack = self.stacks[numbers[0]]
            self.scopes[int(told[1])] = {"owner": numbers[0], "words": " ".join(joiner + options), "opened": at, "around": stack[-1] if stack else None}
            stack.append(int(told[1]))
        elif word == "fork":
            self.tasks[int(told[1])] = {"name": words[3], "scope": numbers[1], "forked": at, "never": at if told[2] == "none" else None}
            self.stacks[int(told[1])] = [numbers[1]]
        elif word == "start":
            self.tasks[numbers[0]]["started"] = at
        elif word in ("ok", "fail"):
            self.tasks[numbers[0]].update(ended=at, value=words[2])
        elif word == "reject":
            self.tasks[numbers[0]].update(never=at, rejected=at)
        elif word == "tick":
            self.ticks.append(("tick", f"{words[1]} ms"))
        elif word == "move":
            self.marks.append((at, "moved", f"scope {numbers[0]} has " + ("no deadline" if words[2] == "never" else f"the deadline {words[2]} ms")))
        elif word == "join":
            self.scopes[numbers[1]]["joined"] = at
            self.marks.append((at, "joined", f"scope {numbers[1]} is joined"))
        elif word == "close":
            stack = self.stacks[numbers[0]]
            for covered in stack[stack.index(numbers[1]) :]:
                self.scopes[covered].setdefault("closing", at)
            self.marks.append((at, "began", f"scope {numbers[1]} begins to close"))
        elif word == "closed":
            self.scopes[numbers[1]]["closed"] = at
            self.stacks[numbers[0]].remove(numbers[1])
            self.marks.append((at, "closed", f"scope {numbers[1]} is closed"))

    def is_accident(self, scope):
        source = self.scopes[scope["from"]]
        if scope["kind"] == "joiner":
            return re.match("all|await-ok|until:fail", source["words"]) is not None
        return scope["kind"] != "close" or source.get("joined", scope["cancelled"]) >= scope["cancelled"]


def span(begin, end):
    return f", event {begin} on:" if end is None else f", event {begin} to {end}:"


def read_of(task):
    """The class of the bar, the state in a trace, and what is said."""
    if "ended" not in task:
        return "running", "running", "runs"
    said = {"success": ("done", f"succeeded with {task['value']}"), "failed": ("failed", f"failed with {task['value']}")}
    kind, words = said.get(task["state"], ("lost", "ended, unavailable"))
    return kind, task["state"], words


def picture_of(run):
    """The labels, the bars and marks with their kinds, and the arrows, from scope to scope, that a picture of the run has."""
    labels, bars, marks = [], [], list(run.marks)
    for number, it in run.scopes.items():
        label = f"scope {number}" + f" of task {it['owner']}" * (it["owner"] > 0) + " " + it["words"]
        labels.append(label)
        bars.append(("shut" if "closed" in it else "open", label + span(it["opened"], it.get("closed"))))
        if "closing" in it:
            bars.append(("closing", label + span(it["closing"], it.get("closed")) + " closing"))
        if "cancelled" in it:
            said, accident = f"cancelled from scope {it['from']}, {it['kind']}", run.is_accident(it)
            bars.append(("cancelled" if accident else "settled", f"{label}{span(it['cancelled'], it.get('closed'))} {said}"))
            marks.append((it["cancelled"], "settled" if not accident else "cancel" if it["from"] == number else "reached", f"scope {number} {said}"))
        around = run.scopes.get(it["around"], {})
        at = around.get("cancelled", 0)
        if it["words"].endswith("shield") and it["opened"] < at <= it.get("closed", at) and it.get("cancelled", at + 1) > at:
            marks.append((at, "shield", f"scope {number} shielded from scope {around['from']}"))
    for number, it in run.tasks.items():
        label = f"task {number} {it['name']} in scope {it['scope']}"
        labels.append(label)
        if it["forked"] != it["never"]:
            bars.append(("waiting", label + span(it["forked"], it.get("started", it["never"])) + " waits"))
        if "started" in it:
            kind, _, words = read_of(it)
            bars.append((kind, label + span(it["started"], it.get("ended")) + " " + words))
            if "ended" in it:
                marks.append((it["ended"], it["state"], f"task {number} {words}"))
        if it["never"]:
            marks.append((it["never"], "never", f"task {number} never starts"))
    arrows = [("arrow", it["from"], number) for number, it in run.scopes.items() if "cancelled" in it]
    return Counter(labels + bars + [(kind, f"event {at}: {mark}") for at, kind, mark in marks] + run.ticks + arrows)


def trace_of(run):
    """The slices, marks and arrows that a trace of the run has, an event a millisecond."""
    said = []

    def put(phase, name, thread, of=None, state=None, begin=0, end=0):
        length = (run.events if end is None else end - 1) * 1000 - (begin - 1) * 1000 if phase == "X" else None
        said.append((phase, name, thread, of, state, (begin - 1) * 1000, length))

    for number, it in run.tasks.items():
        if it["forked"] == it["never"]:
            put("i", "never starts", number, it["scope"], None, it["never"])
            continue
        waits = "started" if "started" in it else "rejected" if "rejected" in it else "waiting"
        put("X", "waits", number, it["scope"], waits, it["forked"], it.get("started", it["never"]))
        if "started" in it:
            put("X", it["name"], number, it["scope"], read_of(it)[1], it["started"], it.get("ended"))
    for number, it in run.scopes.items():
        put("X", f"scope {number} {it['words']}", it["owner"], None, "closed" if "closed" in it else "open", it["opened"], it.get("closed"))
        if "closing" in it:
            put("i", f"closing {number}", it["owner"], begin=it["closing"])
        if "cancelled" in it:
            put("i", f"cancel {number}", it["owner"], it["from"], it["kind"], it["cancelled"])
            if it["from"] != number:
                put("s", number, run.scopes[it["from"]]["owner"], begin=it["cancelled"])
                put("f", number, it["owner"], begin=it["cancelled"])
    return Counter(said)


def in_picture(text):
    """The same as it stands in the text of a picture, above the legend."""
    text = text.split("<g transform='translate(8 ")[0]
    labels = re.findall("<text class='(?:scope|task)' [^>]*>(.*?)<title>", text)
    rows = {int(y) - 4: int(number) for y, number in re.findall("<text class='scope' x='\\d+' y='(\\d+)'>scope (\\d+)", text)}
    marks = re.findall("<(?:path class=|use href=)'#?(\\w+)' [^>]*><title>(.*?) ?</title>", text)
    return Counter(labels + marks + [("arrow", rows[int(a)], rows[int(b)]) for a, b in re.findall("<path class='reach' d='M\\d+ (\\d+)V(\\d+)'/>", text)])


def sums(tasks):
    """How many tasks there are, how many of them failed, and how many have not ended."""
    return Counter(tasks=len(tasks), failed=sum(it["state"] == "failed" for it in tasks), unended=sum("ended" not in it and not it["never"] for it in tasks))


def in_folded(run, text):
    """The same as a folded picture has them: tasks that begin a row, and what the rows say that lies in them."""
    labels = re.findall("<text class='(?:scope|task)' [^>]*>(.*?)<title>", text)
    has = sums([run.tasks[int(number)] for number in re.findall("^task (\\d+) ", "\n".join(labels), re.M)])
    for tasks, failed, unended in re.findall(" \\((\\d+) tasks, (\\d+) failed(?:, (\\d+) not ended)?\\)$", "\n".join(labels), re.M):
        has.update(tasks=int(tasks), failed=int(failed), unended=int(unended or 0))
    return has


def in_trace(text):
    """The slices, marks and arrows of a trace."""
    has = Counter()
    for it in json.loads(text):
        args = it.get("args", {})
        if it["ph"] != "M":
            of, state = args.get("scope", args.get("from")), args.get("is", args.get("by"))
            has[it["ph"], it.get("id", it["name"]), it["tid"], of, state, it["ts"], it.get("dur")] += 1
    return has


def main(program, seeds, *names):
    failed, scripts = False, {name: open(name).read().splitlines() for name in names}
    for seed in range(1, int(seeds) + 1):
        scripts[f"--seed {seed}"] = says(program, ["generate", "--seed", str(seed)]).splitlines()
    for name, lines in scripts.items():
        lines = [line for line in lines if not line.startswith("#")]
        run = Run(program, lines)
        picture = in_picture(says(program, ["timeline", "--quiet", "--lenient", "--rows", "1000"], lines))
        folded = in_folded(run, says(program, ["timeline", "--quiet", "--lenient", "--rows", "1"], lines))
        trace = in_trace(says(program, ["trace", "--quiet", "--lenient"], lines))
        for what, wanted, has in (("picture", picture_of(run), picture), ("folded picture", sums(list(run.tasks.values())), folded), ("trace", trace_of(run), trace)):
            if wanted != has:
                failed = True
                print(f"test: {program}: the {what} of {name} lacks {dict(wanted - has)}, and has besides {dict(has - wanted)}", file=sys.stderr)
    return failed


if __name__ == "__main__":
    sys.exit(main(*sys.argv[1:]))
