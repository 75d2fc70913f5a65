#!/usr/bin/env python3
"""Turns the proof of a cycle whose answers are written `NAME : (t : ℕ) → F-lts.Need-X ..`.

usage: turn_cycles.py NAMES CRATE CYCLE OLDPROOF > Answers.antt   (Invariants.antt by hand; CYCLE as values.+sequence_value)
"""
import os, sys
ARGV = list(sys.argv)
sys.argv = ["x", ARGV[1], ARGV[2]]
exec(open(os.path.join(os.path.dirname(os.path.realpath(__file__)), "turn_proofs.py")).read().replace("\nmain()\n", "\n"))
CYCLE, OLD = ARGV[3], ARGV[4]
data = json.load(open(NAMES))
warn = lambda s: print("look:", s, file=sys.stderr)
text = open(OLD).read()
fns = {}
for k, d in data.items():
    m = re.search(re.escape("." + CYCLE) + r"\.Lts-(.*)$", k)
    if m:
        f = Fn(CYCLE, d)
        f.ensures, f.helpers, f.settled = [], {}, set()
        fns[norm(m.group(1))] = f
single = len(fns) == 1
final = text[[m.start() for m in re.finditer(r"=\s+close\b", text)][-1]:]
order = {}
for m in re.finditer(r"(" + IDENT + r")-lts\.spec\b", final):
    nxt = re.search(IDENT + r"-lts\.spec\b", final[m.end():])
    seg = final[m.end(): m.end() + (nxt.start() if nxt else len(final))]
    order[norm(m.group(1))] = [a for a in re.findall(r"\((" + IDENT + r") t\)", seg)]
goal = {}
for f, fn in fns.items():
    needs = fn.d["needs"]
    names = order.get(f, [])
    names = names[-len(needs):] if len(names) > len(needs) else names
    # calls and at are arguments too
    if len(names) != len(needs):
        warn(f"{f}: {len(names)} answers, {len(needs)} goals")
    for a, j in zip(names, range(len(needs))):
        goal[a] = (fn, needs[j], fn.place(fn.d["asked_at"][j][0]))
head, decls = split_decls(text)
out = []
for x in decls:
    n = name_of(x)
    body = "\n".join(x)
    if n in goal:
        fn, nd, pl = goal[n]
        com = [l for l in x if l.startswith("--")]
        rest = "\n".join(l for l in x if not l.startswith("--"))
        m = re.search(r"^(?:unfolding [^\n]*\n)?" + re.escape(n) + r" t (\w+)(?: κs)? =\s*", rest, re.M)
        if not m:
            warn("form " + n); out.append(body); continue
        unf = re.search(r"^unfolding [^\n]*\n", rest, re.M)
        unf = unf.group(0) if unf else ""
        expr = rest[m.end():]
        if expr.strip() == "search rules" and not unf:
            continue
        def req(q):
            return q
        # the measure is the first part of what is required
        expr = re.sub(r"\.requires\.0(?![.\w])", ".decreases", expr)
        expr = re.sub(r"\.requires\.1(?=[.\s),])|\.requires\.1$", ".requires", expr)
        expr = paths(expr, {m.group(1): (pl, m.group(1))}, fn, warn, nd[1], {}).replace("c.decreases", "c.decreases")
        fields = fn.d["asked"].get(nd[0])
        if fields and len(fields) > 1:
            tp = tuple_parts(expr)
            while tp and len(tp[1]) < len(fields) and tp[1] and tp[1][-1].startswith("(") and tuple_parts(tp[1][-1]) and not tuple_parts(tp[1][-1])[0].strip():
                more = tuple_parts(tp[1][-1])[1]
                if len(more) < 2:
                    break
                tp = (tp[0], tp[1][:-1] + more)
            if tp and len(tp[1]) == len(fields):
                expr = tp[0] + "record { " + "; ".join(f"{a} = {b}" for a, b in zip(fields, tp[1])) + " }"
            else:
                warn(f"{nd[1]}: clauses {fields}")
        fname = [k for k, v in fns.items() if v is fn][0]
        new = nd[1] if single else fname + "-" + nd[1]
        out.append("\n".join(com + [f"pub {new} : goal.{new}"]) + f"\n{unf}{new} t c =\n    " + expr.strip())
        continue
    if n and re.search(r"μ|-Inv-|_Inv|_at$|-at$|_below$|-below$|calls$|spec$", n) or "close" in body and n and "spec" in n:
        print("-- dropped: " + str(n), file=sys.stderr)
        continue
    out.append(body)
print("\n".join(l for l in head if ".Reads as" not in l and ".Kinds as" not in l and ".Lts-" not in l and ".{statement}" not in l and ".Tie.{" not in l and "PlainCycle" not in l and "borrow.Fn.Kinds" not in l))
print("use Rattle." + os.path.basename(os.path.abspath(CRATE)) + ".proofs." + CYCLE + ".Goals as goal\n")
print("\n\n".join(out))
