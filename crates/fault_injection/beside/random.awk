# Random scripts, most of whose commands name scopes and tasks that there are:
#
#     awk -v seed=N -v count=N -v folder=FOLDER -f asking.awk -f random.awk
#
# writes as many scripts into the folder, each with every query behind each of its commands (asking.awk). What
# is kept here of a realm is rough, so that the scripts lean to what may be accepted: a joiner and a deadline cancel
# nothing here. Limits stand in the first line, for those who play the script.

# A number below n; of the same seed the same ones come (Lehmer's generator, exact in any awk).
function below(n) {
    state = state * 16807 % 2147483647
    return int(state / 2147483647 * n)
}

function one_in(times) { return below(times) == 0 }
function pick(words,    part, count) { count = split(words, part, " "); return part[below(count) + 1] }

# A number past `from` up to the count, mostly one of the last four, and at times any number up to two too many.
# A careless script often names one of before its retirement.
function number(from, count,    fresh) {
    if (careless && from && one_in(4)) return below(from) + 1
    if (one_in(16)) return below(count + 3)
    fresh = count - from
    return count - (one_in(3) || fresh < 4 ? below(fresh) : below(4))
}

# ---- what is roughly so

# Whether a command of this cost has room; it takes that.
function room(cost) { if (load + cost > most_load) return 0; load += cost; return 1 }
function acts(a) { return a == 0 || stage[a] == "running" }
function is_there(s) { return s > old_scopes && s <= scopes }
function is_owned(a, s) { return acts(a) && is_there(s) && owner[s] == a }

# The actor's innermost scope that isn't closed; 0 for none.
function innermost(a,    s) {
    for (s = scopes; s > old_scopes; s--) if (owner[s] == a && phase[s] != "closed") return s
    return 0
}

# The newest scope that isn't closed.
function newest(    s) {
    for (s = scopes; s > old_scopes; s--) if (phase[s] != "closed") return s
    return 0
}

function waits(s,    t) {
    for (t = old_tasks + 1; t <= tasks; t++) if (home[t] == s && stage[t] ~ /^(waiting|running)$/) return 1
    return 0
}

# The scope is cancelled, and what lies inside it up to shields.
function cut_from(s) {
    cut[s] = 1
    for (s++; s <= scopes; s++) if (cut[around[s]] && !shield[s]) cut[s] = 1
}

function opened(a, is_shield,    inner) {
    inner = innermost(a)
    if (!acts(a) || phase[inner] == "closing") return
    if (!inner) inner = home[a]
    if (level[inner] == 16 || scopes - old_scopes == most_scopes || !room(4)) return
    scopes++
    owner[scopes] = a; around[scopes] = inner; level[scopes] = level[inner] + 1; phase[scopes] = "open"
    shield[scopes] = is_shield; cut[scopes] = cut[inner] && !is_shield; joined[scopes] = 0; pairs_of[scopes] = pairs[a]
}

function forked(a, s) {
    if (!is_owned(a, s) || phase[s] != "open" || joined[s] || pairs[a] != pairs_of[s]) return
    if (tasks - old_tasks == most_tasks || !room(3)) return
    tasks++
    home[tasks] = s; pairs[tasks] = 0
    stage[tasks] = cut[s] ? "never" : "waiting"
}


function retired(a) {
    if (a != 0 || innermost(0)) return
    old_scopes = scopes; old_tasks = tasks; load = pairs[0]
    for (a = 1; a <= tasks; a++) stage[a] = "gone"
}

# ---- what is chosen

# A task at the stage, one of the newest, or at times any number; -1 for none.
function task_at(wanted,    t) {
    t = number(old_tasks, tasks)
    if (t <= old_tasks && careless) return t
    if (one_in(12)) return one_in(3) ? below(tasks + 2) : t
    while (t > old_tasks && stage[t] != wanted) t--
    return t > old_tasks ? t : -1
}

# One of the scope's tasks at the stage, and at times another; -1 for none.
function task_of(s, wanted,    t) {
    if (one_in(4)) return task_at(wanted)
    for (t = tasks; t > old_tasks && !(home[t] == s && stage[t] == wanted);) t--
    return t > old_tasks ? t : -1
}

function an_actor(    t) {
    if (careless && old_tasks && one_in(8)) return below(old_tasks) + 1
    if (one_in(2)) return 0
    if (one_in(16)) return below(tasks + 3)
    t = task_at("running")
    return t < 0 ? 0 : t
}

function actor_in(s) { return one_in(8) || !(s in owner) ? an_actor() : owner[s] }

function a_scope(    s) {
    if (one_in(3)) return number(old_scopes, scopes)
    s = newest()
    return s ? s : scopes
}

function a_name() { return pick("user trace boom") }
function a_value() { return pick("9223372036854775807 -9223372036854775808 " a_name() " -2 -1 0 1 2 3 4") }
function an_end(t) { return one_in(2) ? "fail " t " " a_name() : "ok " t " " a_value() }
function earlier(soon) { return moment > soon ? moment - soon : 0 }

# None, as mostly where much ends, or one that is soon, so that many are equal, or past, or at the end of time.
function a_deadline(    kind) {
    kind = leaning == leanings[1] && !one_in(4) ? 0 : below(12)
    return kind < 6 ? "" : kind < 10 ? moment + below(5) : kind < 11 ? earlier(below(5)) : "18446744073709551615"
}

function a_joiner(    n) {
    n = below(4)
    return pick("all any await await-ok - until:ok:" n " until:ok:" n " until:ok:" n " until:fail:" n " until:fail:" n " until:sum:" n - 1)
}

# ---- commands

function open(    a, joiner, deadline, words, is_shield) {
    a = an_actor(); joiner = a_joiner(); deadline = a_deadline()
    words = "open " a (joiner == "-" ? "" : " " joiner) (deadline == "" ? "" : " deadline=" deadline) (one_in(2) ? " move-on" : "")
    is_shield = one_in(4)
    opened(a, is_shield)
    return words (is_shield ? " shield" : "")
}

function fork(    s, a) { s = a_scope(); a = actor_in(s); forked(a, s); return "fork " a " " s " " a_name() }

function bind(    a) { a = an_actor(); if (acts(a) && room(1)) pairs[a]++; return "bind " a " " a_name() " " a_value() }

function unbind(    a, s) {
    a = one_in(8) ? below(tasks + 2) : an_actor(); s = innermost(a)
    if (acts(a) && pairs[a] > (s ? pairs_of[s] : 0) && room(1)) pairs[a]--
    return "unbind " a
}

# The task ends, or mostly closes its scope first.
function finish(t,    s) {
    s = innermost(t)
    if (s && acts(t) && one_in(2)) return phase[s] == "closing" ? ending(s) : close_begin(t, s)
    if (acts(t) && t > 0 && !s) stage[t] = "finished"
    return an_end(t)
}

# What comes to a task. Where there is no task for it, one starts or is forked.
function of_task(form,    t) {
    if (form == "finish" && (t = task_at("running")) >= 0) return finish(t)
    if ((t = task_at("waiting")) < 0) return fork()
    if (form != "reject") form = "start"
    if (stage[t] == "waiting") stage[t] = form == "start" ? "running" : "never"
    return form " " t
}

function close_begin(a, s,    later) {
    if (is_owned(a, s) && phase[s] == "open") {
        phase[s] = "closing"
        for (later = s; later <= scopes; later++) if (owner[later] == a && phase[later] != "closed") cut_from(later)
    }
    return "close " a " " s
}

function close_end(a, s) {
    if (is_owned(a, s) && phase[s] == "closing" && innermost(a) == s && !waits(s)) phase[s] = "closed"
    return "closed " a " " s
}

# What a closing scope waits for: that its tasks end, and that it is closed.
function ending(s,    t) {
    if ((t = task_of(s, "running")) >= 0) return finish(t)
    if ((t = task_of(s, "waiting")) >= 0) { if (stage[t] == "waiting") stage[t] = "never"; return "reject " t }
    return close_end(owner[s], s)
}

function tick(    now) {
    now = one_in(10) ? earlier(below(4)) : moment + below(4)
    if (now >= moment && room(1)) moment = now
    return "tick " now
}

function of_scope(form,    s, a, deadline) {
    s = a_scope(); a = actor_in(s)
    if (form == "cancel") { if (is_there(s) && phase[s] == "open" && (cut[s] || room(1))) cut_from(s); return "cancel " s }
    if (form == "move") { deadline = a_deadline(); room(1); return "move " s " " (deadline == "" ? "never" : deadline) }
    if (form == "join") { if (is_owned(a, s) && phase[s] == "open" && (cut[s] || !waits(s))) joined[s] = 1; return "join " a " " s }
    if (form == "close") return close_begin(a, s)
    return close_end(a, s)
}

function retire(    a) { a = one_in(careless ? 3 : 6) ? below(tasks + 2) : 0; retired(a); return "retire " a }

function of_form(form) {
    if (form == "open") return open()
    if (form == "fork") return fork()
    if (form == "bind") return bind()
    if (form == "unbind") return unbind()
    if (form == "tick") return tick()
    if (form == "retire") return retire()
    return form ~ /^(reject|start|finish)$/ ? of_task(form) : of_scope(form)
}

# The next command: of a form that the script leans to, or what the newest scope waits for.
function command(    form, s) {
    form = pick(leaning)
    if (one_in(4)) return of_form(form)
    s = newest()
    if (form == "retire" && s) return of_scope("close")
    if (form ~ /^(open|bind|unbind|tick|retire)$/) return of_form(form)
    if (!s) return open()
    return phase[s] == "closing" ? ending(s) : of_form(form)
}

# ---- scripts

# The scopes and tasks of a random script, of 0 and of some beyond too, since there may be more than are counted here;
# the tasks by main, the owner of their scope and by themselves: all at the last command, and as long as they are
# few; else the newest and some others. And at times what is to be seen of the scopes.
function ask_some(is_last,    n, more) {
    more = is_last ? 4 : 1
    for (n = 0; n <= scopes + more; n++) if (is_last || n > scopes - 6 || below(scopes) < 6) ask_scope(n)
    for (n = 0; n <= tasks + more; n++) if (is_last || n > tasks - 6 || below(tasks) < 6) {
        ask_task(n)
        ask_ends(0, n)
        ask_ends(n, n)
        if (owner[home[n]] > 0 && owner[home[n]] != n) ask_ends(owner[home[n]], n)
    }
    if (is_last || one_in(6)) print "# show " scopes + 12 > out
}

function begin(    few) {
    careless = one_in(6)
    leaning = leanings[careless ? 2 + below(2) : below(4)]
    split("", owner); split("", phase); split("", stage); split("", home); split("", pairs); split("", cut); split("", level)
    scopes = tasks = old_scopes = old_tasks = load = moment = 0
    few = one_in(4)
    most_scopes = few ? below(6) + 1 : 4096; most_tasks = few ? below(8) + 1 : 65536; most_load = few ? below(60) + 1 : 1048576
    print "# limits " most_scopes, most_tasks, most_load > out
}

# How many commands a script has: mostly few.
function size(    kind) { kind = below(20); return kind == 0 ? below(200) + 1 : kind < 3 ? below(80) + 1 : below(20) + 11 }

BEGIN {
    state = seed
    leanings[0] = "open open open open open fork fork fork start start finish finish cancel move move tick join close"
    leanings[1] = "open fork fork fork fork reject start start start start finish finish finish finish finish finish tick join join close"
    leanings[2] = "open open fork fork start start finish bind bind bind bind unbind unbind close closed retire reject"
    leanings[3] = "open open fork fork start start finish finish join close close closed retire retire tick tick move reject cancel"
    keys = "user trace boom"
    for (script = 1; script <= count; script++) {
        out = sprintf("%s/%04d.script", folder, script)
        begin()
        for (left = size(); left > 0; left--) {
            print command() > out
            ask_some(left == 1)
        }
        close(out)
    }
}
