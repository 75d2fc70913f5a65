#!/usr/bin/env python3
"""Turns the proof of a cycle of one function: turn_cycle.py NAMES CRATE MODULEPATH(+f) OLDPROOF LTS > Answers.antt (Invariants.antt by hand)."""
import json, os, re, sys
sys.argv_saved = sys.argv
NAMES, CRATE, PATH, OLD, ALIAS = sys.argv[1:6]
src = open(os.path.join(os.path.dirname(os.path.realpath(__file__)), "turn_proofs.py")).read().replace("\nmain()\n", "\n")
sys.argv = ["x", NAMES, CRATE]
exec(src)
ENSURES = contracts(CRATE)
data = json.load(open(NAMES))
fname = PATH.split("+")[-1]
key = [k for k in data if f".{PATH}.Lts" in k][0]
fn = Fn(PATH, data[key])
fn.ensures = ENSURES.get(PATH.replace("+", ""), [])
fn.helpers = {}
warn = lambda s: print("look:", s, file=sys.stderr)
text = open(OLD).read()
# `lts.X (callees t) ...` -> place types
def place_type(m):
    i = fn.place(m.group(1))
    if i is None:
        warn("no place " + m.group(1)); return m.group(0)
    used.add(i)
    return f"At-{fn.by_name[i]} t"
used = set()
tail = r" \((?:callees|calls) t\) \(at t\) own\.Post(?: Inv decreases_loop)?"
text = re.sub(ALIAS + r"\.(?!Need)(" + IDENT + r")" + tail, place_type, text)
# helper modules: name -> place of their c
mods = []
lines = text.split("\n")
cur = None
helpers = {}
for l in lines:
    m = re.match(r"module _ \(t : ℕ\)(.*) where", l)
    if m:
        q = re.search(r"\((\w+) : At-(\S+) t\)", m.group(1))
        cur = (q.group(1), fn.by_name.index(q.group(2))) if q else None
        continue
    if l and not l[0].isspace():
        cur = None
    m = re.match(r"  (?:abbrev )?(" + IDENT + r") :", l)
    if m and cur:
        helpers[m.group(1)] = cur[1]
rets = {}
for m in re.finditer(r"^  abbrev (" + IDENT + r") : At-(\S+) t$", text, re.M):
    rets[m.group(1)] = fn.by_name.index(m.group(2))
asked = {}
for (a, b), nd in zip(data[key]["asked_at"], data[key]["needs"]):
    asked[nd[1]] = fn.place(a)
VIEWS = set()
g = sys.argv_saved[6] if len(sys.argv_saved) > 6 else None
if g:
    for m in re.finditer(r"abbrev pub (\S+) : \(t : [^)]*\) → Type 0\n\s*\S+ =\s+λ t\.\s+(View\.In|Lts)", open(g).read()):
        if m.group(2) == "View.In":
            VIEWS.add(m.group(1))

def chain(i):
    out = []
    while i is not None:
        out.append(i); i = fn.parent(i)
    return out

def step(i, f, rest):
    """New fields for the old field f (and rest) at place i or before."""
    rest = [{"inv": "invariant", "type-inv": "type_inv", "0": "0"}.get(q, q) for q in rest]
    if f in ("args", "requires", "ranges", "lifetimes"):
        return [f] + rest
    for p in chain(i):
        arm = fn.d["arms"][p]
        if arm:
            best = None
            for name, old, path in arm[2]:
                if norm(old) == norm(f) and [norm(q) for q in rest[: len(path)]] == [norm(q) for q in path]:
                    if best is None or len(path) > len(best[1]): best = (name, path)
            if best: return [arm[0], best[0]] + rest[len(best[1]):]
        new = fn.field(p, f)
        if new is not None: return [new] + rest
    warn(f"no step {f} before {fn.by_name[i]}")
    return [f] + rest

def rewrite(body, env, where):
    """env: var -> (place, isview)"""
    # aliases
    out, pos = "", 0
    pat = re.compile(r"let (" + IDENT + r") = (" + IDENT + r")((?:\.before)+) in\b")
    m = pat.search(body)
    while m:
        v, r = m.group(1), m.group(2)
        if r in env:
            rest = body[m.end():]
            q = re.search(r"(" + IDENT + r") t " + re.escape(v) + r"(?![\w.'-])", rest)
            q2 = None
            for q in re.finditer(r"(" + IDENT + r") t " + re.escape(v) + r"(?![\w.'-])", rest):
                if q.group(1) in helpers: q2 = helpers[q.group(1)]; break
            if q2 is not None:
                body = body[:m.start()] + f"let {v} = {bare(env[r], r, q2, where)} in" + rest
                env[v] = (q2, False)
            else:
                body = body[:m.start()] + re.sub(r"^\s*", "", rest) if False else body[:m.start()] + "let " + v + "@ = " + r + " in" + rest
                env[v] = env[r] + (r,)
            m = pat.search(body, m.start() + 1)
        else:
            m = pat.search(body, m.end())
    body = re.sub(r"let " + IDENT + r"@ = " + IDENT + r" in\s*", "", body)
    def turn(m):
        v = m.group(1)
        if v not in env: return m.group(0)
        e = env[v]
        root = e[2] if len(e) > 2 else v
        fs = m.group(2).split(".")[1:]
        n = 0
        while fs and fs[0] == "before": fs.pop(0); n += 1
        if not fs:
            pre = body[: m.start()]
            q = re.search(r"(" + IDENT + r") t \(?$", pre)
            if q and q.group(1) in helpers:
                return bare(e, root, helpers[q.group(1)], where)
            if n: warn(f"{where}: bare {m.group(0)}")
            return m.group(0)
        return ".".join([root] + step(e[0], fs[0], fs[1:]))
    body = re.sub(r"(?<![\w.'-])(" + IDENT + r")((?:\.[A-Za-z0-9_'-]+)*)", turn, body)
    # (it t c).before...
    def turn2(m):
        h = m.group(2)
        if h not in rets: return m.group(0)
        fs = m.group(3).split(".")[1:]
        while fs and fs[0] == "before": fs.pop(0)
        return m.group(1) + "." + ".".join(step(rets[h], fs[0], fs[1:]))
    body = re.sub(r"(\((" + IDENT + r") t " + IDENT + r"\))((?:\.[A-Za-z0-9_'-]+)+)", turn2, body)
    body = re.sub(r"(?<![\w.'(-])()(it)((?:\.[A-Za-z0-9_'-]+)+)", lambda m: "it." + ".".join(step(rets["it"], *(lambda f: (f[0], f[1:]))([x for x in m.group(3).split(".")[1:] if x != "before"]))) if "it" in rets else m.group(0), body)
    return body

def bare(e, root, target, where):
    ch = chain(e[0])
    if target not in ch:
        warn(f"{where}: {fn.by_name[target]} is not before {fn.by_name[e[0]]}"); return root
    return root + ".before" * (ch.index(target) + (1 if e[1] else 0))

# go by blocks
blocks, curmod = [], None
out = []
i = 0
head = []
while i < len(lines) and (lines[i].startswith(("--", "use ")) ):
    head.append(lines[i]); i += 1
body_lines = lines[i:]
txt = "\n".join(body_lines)
decls = re.split(r"\n(?=\S)", txt)
specargs = re.search(re.escape(ALIAS) + r"\.spec[^\n]*\n(.*)$", txt, re.S)
order = re.findall(r"\((" + IDENT + r") t\)", specargs.group(1))
needs = [nd[1] for nd in fn.d["needs"]]
if len(order) != len(needs): warn(f"{len(order)} answers, {len(needs)} goals")
newname = dict(zip(order, needs))
for d in decls:
    if not d.strip(): continue
    if re.match(r"pub \+|abbrev (μ|at|below|Inv|decreases_loop) :", d): continue
    m = re.match(r"(module _ \(t : ℕ\)(.*?) where)\n", d)
    if m and re.search(r"\((\w+) : At-(\S+) t\)", m.group(2)):
        q = re.search(r"\((\w+) : At-(\S+) t\)", m.group(2))
        pl = fn.by_name.index(q.group(2))
        env = {q.group(1): (pl, False)}
        h = rewrite(m.group(1), dict(env), "module")
        parts = re.split(r"\n\n", d[m.end():])
        res = []
        for p in parts:
            r = re.match(r"(\s*abbrev (" + IDENT + r") : At-(\S+) t\n\s*\2 = )", p)
            if r:
                res.append(r.group(1) + bare((pl, False), q.group(1), fn.by_name.index(r.group(3)), r.group(2)))
            else:
                res.append(rewrite(p, dict(env), p.strip().split(" ")[0]))
        out.append(h + "\n" + "\n\n".join(res))
        continue
    if m:
        for p in re.split(r"\n\n", d[m.end():]):
            p = "\n".join(l[2:] if l.startswith("  ") else l for l in p.split("\n"))
            com = [l for l in p.split("\n") if l.startswith("--")]
            p = "\n".join(l for l in p.split("\n") if not l.startswith("--"))
            if not p.strip(): continue
            r = re.match(r"(" + IDENT + r") : [^\n]*\n(unfolding [^\n]*\n)?\1 (\w+)(?: κs)? =\s*", p)
            if not r: warn("form: " + p[:80]); out.append(p); continue
            n, u, c = r.group(1), r.group(2) or "", r.group(3)
            if n not in newname: warn("no goal for " + n); continue
            new = newname[n]; pl = asked[new]
            expr = p[r.end():]
            if expr.strip() == "search rules" and not u: continue
            expr = rewrite(expr, {c: (pl, fn.by_name[pl] in VIEWS)}, new)
            fields = None
            for nd in fn.d["needs"]:
                if nd[1] == new: fields = fn.d["asked"].get(nd[0])
            if fields and len(fields) > 1:
                tp = tuple_parts(expr)
                if tp and len(tp[1]) == len(fields):
                    expr = tp[0] + "record { " + "; ".join(f"{a} = {b}" for a, b in zip(fields, tp[1])) + " }"
                else: warn(f"{new}: clauses {fields}")
            out.append("\n".join(com + [f"pub {new} : goal.{new}"]) + f"\n{u}{new} t c =\n    " + expr.strip())
        continue
    out.append(d)
print("\n".join(head))
print()
for k in sorted(used):
    print(f"abbrev At-{fn.by_name[k]} : ℕ → Type 0\nAt-{fn.by_name[k]} t = {ALIAS}.{fn.places[k][0]} PLACEARGS\n")
print("\n\n".join(out))
