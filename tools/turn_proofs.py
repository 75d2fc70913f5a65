#!/usr/bin/env python3
"""Turns proofs that were written as one file of answers in order into Invariants.antt and Answers.antt.

usage: turn_proofs.py NAMES CRATE [FUNCTION..]

NAMES is the names.json that `rt check --generated DIR --old-names` writes in the crate's folder, CRATE that folder. A proof by hand (no tie.spec) stays.
"""
import json
import os
import re
import sys

NAMES, CRATE, ONLY = sys.argv[1], sys.argv[2], sys.argv[3:]
CRATENAME = os.path.basename(os.path.abspath(CRATE))
norm = lambda s: s.replace("-", "_").lower()
IDENT = r"[^\s(){}.;,@\"«»\[\]\\]+"


def split_decls(text):
    """Header lines, then declarations (each a list of lines)."""
    lines = text.split("\n")
    head, decls, cur = [], [], None
    pend = []
    for l in lines:
        if re.match(r"(?:pub )?use ", l) or (l.startswith("--") and cur is None and not decls and not pend):
            head.append(l)
            continue
        if l.startswith("--"):
            if cur is not None:
                decls.append(cur)
                cur = None
            pend.append(l)
            continue
        if not l.strip():
            if cur is not None:
                decls.append(cur)
                cur = None
            continue
        if not l[0].isspace():
            m = re.match(r"(?:abbrev |unfoldable |pub |data |record |module |mutual)*(" + IDENT + r")", l)
            is_sig = re.match(r"(?:abbrev |unfoldable |pub )*" + IDENT + r"\s*:(?:\s|$)", l) or re.match(r"(?:pub )?(?:data|record|module|mutual|ruleset)\b", l)
            if is_sig:
                if cur is not None:
                    decls.append(cur)
                cur = pend + [l]
                pend = []
                continue
        if cur is None:
            cur = pend
            pend = []
        cur.append(l)
    if cur is not None:
        decls.append(cur)
    if pend:
        decls.append(pend)
    return head, decls


def name_of(decl):
    for l in decl:
        if l.startswith("--"):
            continue
        m = re.match(r"(?:abbrev |unfoldable |pub )*(" + IDENT + r")\s*:(?:\s|$)", l)
        return m.group(1) if m else None
    return None


class Fn:
    def __init__(self, path, d):
        self.path, self.d = path, d
        self.places = d["places"]
        self.index = {p[0]: i for i, p in enumerate(self.places)}
        self.by_name = d["places_by_name"]

    def place(self, name):
        n = norm(name)
        for k, i in self.index.items():
            if k == name:
                return i
        for k, i in self.index.items():
            if norm(k) == n:
                return i
        return None

    def parent(self, i):
        p = self.places[i][1]
        return None if p is None else self.index[p]

    def field(self, i, f):
        """The new name of the field f at the place i."""
        old, new = self.places[i][2]
        if norm(f) == norm(old):
            return new
        return None


def convert(text, fn, warn):
    head, decls = split_decls(text)
    named = [(name_of(x), x) for x in decls]
    last = None
    for n, x in named:
        body = "\n".join(x)
        m = re.search(r"tie\.spec\b(.*)", body, re.S)
        if m and "tie.close" in body:
            last = n
            args = m.group(1)
    if last is None:
        return None
    # drop final parens
    args = args.strip()
    depth = 0
    out = ""
    for ch in args:
        if ch == "(":
            depth += 1
        if ch == ")":
            if depth == 0:
                break
            depth -= 1
        out += ch
    args = re.findall(r"\((?:[^()]|\([^()]*\))*\)|" + IDENT, out)
    loops = fn.d["loops"]
    k = 0
    invs = {}
    for lp in loops:
        invs[args[k]] = ("invariant", lp)
        k += 1
        if True:
            invs[args[k]] = ("decreases", lp)
            k += 1
    needs = fn.d["needs"]
    rest = args[k:]
    if len(rest) != len(needs):
        warn(f"{fn.path}: {len(rest)} answers, {len(needs)} goals")
        # by name
        used = {}
        for a in rest:
            pass
    pos = {}
    fn.settled = set()
    old_types = {}
    for n, x in named:
        for l in x:
            m = re.match(r"(?:abbrev |pub )*(" + IDENT + r")\s*:\s*tie\.Need-(\S+)", l)
            if m:
                old_types[n] = m.group(2)
    if len(rest) == len(needs):
        for j, a in enumerate(rest):
            pos.setdefault(a, []).append(j)
    else:
        keys = [re.sub(r"^(overflow|nonzero|float|bounds)_", "", norm(nd[0])) for nd in needs]
        for a in rest:
            t = norm(old_types.get(a, a))
            t = re.sub(r"^(overflow|nonzero|bounds)_", "", t)
            js = [j for j, kx in enumerate(keys) if kx == t]
            if len(js) == 1:
                pos.setdefault(a, []).append(js[0])
            else:
                if "slice_aggregate" not in t and "slice_bounds" not in t:
                    warn(f"{fn.path}: no goal for {a} ({t})")
                fn.settled.add(a)
    # An answer named after a number of a local: by what stands before that.
    if fn.settled:
        taken = {j for js in pos.values() for j in js}
        for a in rest:
            if a in fn.settled:
                stem = re.sub(r"_?t\d+$", "", norm(old_types.get(a, a)))
                stem = re.sub(r"^(overflow|nonzero)_", "", stem)
                for j, nd in enumerate(needs):
                    if j not in taken and re.match(r"(overflow_|nonzero_)?" + re.escape(stem) + r"(_|-)", norm(nd[0])) and re.search(r"[-_]t\d+$", a):
                        pos[a] = [j]
                        taken.add(j)
                        fn.settled.discard(a)
                        warn(f"{fn.path}: {a} answers {nd[1]}")
                        break
    inv_decls, answers = [], []
    fn.helpers = {}
    for n, x in named:
        if n and n not in pos and n not in invs and n != last:
            m = re.search(r":\s*\(" + IDENT + r" : tie\.(" + IDENT + r")", " ".join(x))
            if m and fn.place(m.group(1)) is not None:
                fn.helpers[n] = fn.place(m.group(1))
    for n, x in named:
        if n == last:
            continue
        if n in fn.settled:
            continue
        if n in invs:
            inv_decls.append(inv_convert(n, x, invs[n], fn, warn))
            continue
        if n in pos:
            for j in pos[n]:
                a = answer_convert(n, x, needs[j][1], fn.place(fn.d["asked_at"][j][0]), fn, warn)
                if a is not None:
                    answers.append(a)
            continue
        if n is None and all(l.startswith("--") for l in x):
            answers.append("\n".join(x))
            continue
        answers.append(helper_convert(n, x, fn, warn, invs))
    # uses of other answers
    base = "Rattle." + CRATENAME + ".proofs." + fn.path
    use = []
    for l in head:
        if re.search(r"\.Statement\.\{statement\}|\.Tie as tie$", l):
            continue
        use.append(l)
    comments = [l for l in use if l.startswith("--")]
    uses = [l for l in use if not l.startswith("--")]
    inv_text = ans_text = None
    if inv_decls:
        inv_text = "\n".join(comments + uses + [f"use {base}.Given as goal", ""]) + "\n" + "\n\n".join(inv_decls) + "\n"
    if any(not a.startswith("--") for a in answers):
        ans_text = "\n".join(comments + uses + [f"use {base}.Goals as goal", ""]) + "\n" + "\n\n".join(answers) + "\n"
    return inv_text, ans_text


def inv_convert(n, x, kind, fn, warn):
    what, ((old, new), vars_) = kind[0], kind[1]
    i = [tuple(l[0]) for l in fn.d["loops"]].index((old, new))
    changed = fn.d["changed"][i]
    name = f"{what}-{new}"
    comment = [l for l in x if l.startswith("--")]
    rest = [l for l in x if not l.startswith("--")]
    sig, body = rest[0], "\n".join(rest[1:])
    unf = ""
    m = re.match(r"(unfolding [^\n]*\n)", body)
    if m:
        unf = m.group(1)
        body = body[m.end():]
    m = re.match(re.escape(n) + r"((?:\s+(?!=\s)" + IDENT + r")*)\s*=(?=\s)\s*", body)
    if not m:
        warn(f"{fn.path}: {n}: not one clause")
        return "\n".join(x)
    params = m.group(1).split()
    expr = body[m.end():]
    want = len(vars_) + sum(1 for c in changed if c)
    mp = {}
    if len(params) != want:
        warn(f"{fn.path}: {n}: {len(params)} parameters, {want} expected: {params} {vars_} {changed}")
    for p, v, c in zip(params, vars_, changed):
        mp[p] = f"l.initial.{v}" if c else f"l.{v}"
    for p, v in zip(params[len(vars_):], [v for v, c in zip(vars_, changed) if c]):
        mp[p] = f"l.{v}"
    mp.pop("_", None)
    binders = set(re.findall(r"λ ((?:[^.]|\n)*?)\.", expr))
    for b in binders:
        for w in re.findall(IDENT, b):
            if w in mp:
                warn(f"{fn.path}: {n}: a binder {w} hides a parameter")

    def turn(m):
        w = m.group(0)
        before = expr[m.start() - 1] if m.start() else " "
        after = expr[m.end():m.end() + 1]
        if before == "." or w not in mp or re.match(r"\s+=\s", expr[m.end() :]) or after == "." and mp[w].startswith("l.initial."):
            return w if before == "." or w not in mp or re.match(r"\s+=\s", expr[m.end() :]) else mp[w]
        return mp[w]

    expr = re.sub(IDENT, turn, expr)
    return "\n".join(comment + [f"abbrev pub {name} : goal.{name}"]) + "\n" + unf + f"{name} l = " + expr


def paths(body, env, fn, warn, where, helpers):
    body = body.replace(".type-inv", ".type_inv").replace(".well-formed", ".well_formed")
    lines = body
    pat = re.compile(r"let (" + IDENT + r") = (" + IDENT + r")((?:\.before)*) in[ \n]\s*")
    while True:
        for m in pat.finditer(lines):
            if m.group(2) in env and m.group(1) not in env:
                env[m.group(1)] = (env[m.group(2)][0], env[m.group(2)][1], True)
                lines = lines[: m.start()] + lines[m.end() :]
                break
        else:
            break

    def chain(i):
        out = []
        while i is not None:
            out.append(i)
            i = fn.parent(i)
        return out

    def turn(m):
        v = m.group(1)
        if v not in env:
            return m.group(0)
        i, root = env[v][:2]
        fields = m.group(2).split(".")[1:]
        n = 0
        while fields and fields[0] == "before":
            fields.pop(0)
            n += 1
        if not fields:
            if n == 0 and len(env[v]) == 2:
                prev = re.search(r"(" + IDENT + r")\s*\(?$", lines[: m.start()])
                if not (prev and prev.group(1) in helpers and helpers[prev.group(1)] != i):
                    return v
            prev = re.search(r"(" + IDENT + r")\s*\(?$", lines[: m.start()])
            if prev and prev.group(1) in helpers:
                to = helpers[prev.group(1)]
                ch = chain(i)
                if to in ch:
                    return root + ".before" * ch.index(to)
            warn(f"{where}: what stands for the place {m.group(0)}?")
            return m.group(0)
        fields = [{"type-inv": "type_inv", "well-formed": "well_formed", "Type-inv": "type_inv"}.get(q, q) for q in fields]
        f = fields[0]
        if f in ("args", "decreases", "requires", "ranges", "lifetimes", "well_formed", "captures", "utf8"):
            return ".".join([root] + fields)
        for p in chain(i):
            arm = fn.d["arms"][p]
            if arm:
                best = None
                for name, old, path in arm[2]:
                    if norm(old) == norm(f) and [norm(q) for q in fields[1 : 1 + len(path)]] == [norm(q) for q in path]:
                        if best is None or len(path) > len(best[1]):
                            best = (name, path)
                if best:
                    rest = fields[1 + len(best[1]) :]
                    return ".".join([root, arm[0], best[0]] + rest)
            new = fn.field(p, f)
            if new is not None:
                return ".".join([root, new] + fields[1:])
        if f.endswith("_lem"):
            fields[0] = f = f[:-4]
            for p in chain(i):
                new = fn.field(p, f)
                if new is not None:
                    return ".".join([root, new] + fields[1:])
        warn(f"{where}: no step {f} before {fn.places[i][0]} in {m.group(0)}")
        return ".".join([root] + fields)

    lines = re.sub(r"(?<![\w.'-])(" + IDENT + r")((?:\.[A-Za-z0-9_'-]+)*)", turn, lines)
    lines = clauses(lines, {v[1] for v in env.values()}, fn)
    # What a test with a `not` says is said without it now.
    lines = re.sub(r"\bnot-(?:true|false) (?:_|\([^()]*\)|" + IDENT + r"(?:\." + IDENT + r")*) (\w+\.[\w'-]*\bnot-[\w'-]*\.(?:true|false))(?![\w.-])", r"\1", lines)
    return lines


def clauses(lines, roots, fn):
    """`.requires.0` and `.ensures.1` by the names of the clauses."""
    pre = (fn.d.get("pre") or {}).get("fields") or []
    by_step, params = {}, {}
    for p, c in zip(fn.places, fn.d["clauses"]):
        if c and c.get("fields"):
            by_step[p[2][1]] = c["fields"]
        if p[3]:
            params[p[2][1]] = fn.d["params"].get(p[3], [])
    alias = {}
    for m in re.finditer(r"let (" + IDENT + r")(?: : [^=]*?)? = (" + IDENT + r")\.([\w'-]+)((?:\.[\w'-]+)*) in\b", lines):
        if m.group(2) in roots:
            alias[m.group(1)] = (m.group(3), m.group(4).split(".")[1:])

    def turn(m):
        v, fs = m.group(1), m.group(2).split(".")[1:]
        if v in roots:
            skip, full = 0, fs
        elif v in alias:
            if alias[v][1] and alias[v][1] != ["ensures"]:
                return m.group(0)
            full = [alias[v][0]] + alias[v][1] + fs
            skip = 1 + len(alias[v][1])
        else:
            return m.group(0)
        full = list(full)

        def nested(k, names):
            """`.0`, `.1.0`, `.1.1` of clauses that were pairs to the right."""
            i = 0
            while i < len(names) - 1 and k < len(full) and full[k] == "1" and len(names) - i > 2:
                if k + 1 < len(full) and full[k + 1] in ("0", "1"):
                    del full[k]
                    i += 1
                else:
                    return
            if k < len(full) and full[k].isdigit():
                j = i + int(full[k])
                if j < len(names):
                    full[k] = names[j]

        if full[0] == "requires" and len(full) > 1 and full[1].isdigit() and pre:
            nested(1, pre)
        elif len(full) > 2 and full[1] == "ensures" and full[2].isdigit() and full[0] in by_step:
            nested(2, by_step[full[0]])
        elif len(full) > 2 and full[1] in ("auto", "new") and full[2].isdigit() and full[0] in params:
            ps = params[full[0]]
            while len(full) > 3 and full[2] == "1" and full[3] in ("0", "1"):
                del full[2]
            full[2] = next((q for q in ("buf", "out", "entries", "calls") if q in ps), ps[0] if ps else "?")
        if v in roots:
            return ".".join([v] + full)
        return ".".join([v] + full[skip:])

    return re.sub(r"(?<![\w.'-])(" + IDENT + r")((?:\.[A-Za-z0-9_'-]+)+)", turn, lines)


def tuple_parts(expr):
    """The parts of an expression that ends in a tuple at its top, and what stands before it."""
    e = expr.rstrip()
    if not e.endswith(")"):
        return None
    depth = 0
    for i in range(len(e) - 1, -1, -1):
        if e[i] in ")]}":
            depth += 1
        if e[i] in "([{":
            depth -= 1
            if depth == 0:
                break
    before = e[:i]
    if before.strip() and not re.search(r"\bin\s*$", before):
        return None
    inner = e[i + 1 : -1]
    parts, depth, cur = [], 0, ""
    for ch in inner:
        if ch in "([{":
            depth += 1
        if ch in ")]}":
            depth -= 1
        if ch == "," and depth == 0:
            parts.append(cur)
            cur = ""
        else:
            cur += ch
    if cur.strip():
        parts.append(cur)
    return before, [q.strip() for q in parts]


def answer_convert(n, x, new, place, fn, warn):
    comment = [l for l in x if l.startswith("--")]
    rest = [l for l in x if not l.startswith("--")]
    body = "\n".join(rest[1:])
    unf = ""
    m = re.match(r"(unfolding [^\n]*\n)", body)
    if m:
        unf = m.group(1)
        body = body[m.end():]
    m = re.match(re.escape(n) + r"((?:\s+(?!=\s)" + IDENT + r"|\s+\{[^}]*\})*)\s*=(?=\s)\s*", body)
    if not m:
        # clauses by patterns: left as they are
        warn(f"{fn.path}: {n}: not one clause")
        return "\n".join(comment + [f"pub {new} : goal.{new}", unf + re.sub(r"^" + re.escape(n) + r"\b", new, body, flags=re.M)])
    params = m.group(1).split()
    expr = body[m.end():]
    if expr.strip() == "search rules" and not unf:
        return None
    where = ""
    w = re.search(r"\n\s*where\n", expr)
    c = params[0] if params else "c"
    env = {c: (place, c)}
    if expr.startswith("let ") or "\n" in expr:
        expr = expr
    expr = paths(expr, env, fn, warn, f"{fn.path}: {new}", fn.helpers)
    fields = None
    for j, nd in enumerate(fn.d["needs"]):
        if nd[1] == new:
            fields = fn.d["asked"].get(nd[0])
    if new.startswith("returns") and len(fn.ensures) > 1:
        fields = fn.ensures
    if fields and len(fields) > 1:
        tp = tuple_parts(expr)
        while tp and len(tp[1]) < len(fields) and tp[1] and tp[1][-1].startswith("(") and tuple_parts(tp[1][-1]) and not tuple_parts(tp[1][-1])[0].strip():
            more = tuple_parts(tp[1][-1])[1]
            if len(more) < 2:
                break
            tp = (tp[0], tp[1][:-1] + more)
        if tp and len(tp[1]) == len(fields):
            expr = tp[0] + "record { " + "; ".join(f"{a} = {b}" for a, b in zip(fields, tp[1])) + " }"
        else:
            warn(f"{fn.path}: {new}: its clauses are {fields}")
    sep = " " if "\n" not in expr and len(expr) < 120 else "\n    "
    expr = expr.strip("\n ")
    ps = " ".join(p for p in params[:1])
    return "\n".join(comment + [f"pub {new} : goal.{new}"]) + "\n" + unf + f"{new} {ps} =" + sep + expr


def helper_convert(n, x, fn, warn, invs):
    text = "\n".join(x)
    env = {}
    asked = {norm(q[0]) for q in fn.d["asked_at"]}
    for m in re.finditer(r"\((" + IDENT + r") : tie\.(" + IDENT + r")((?: " + IDENT + r")*)\)", text):
        i = fn.place(m.group(2))
        if i is None:
            warn(f"{fn.path}: {n}: no place {m.group(2)}")
            continue
        if norm(fn.places[i][0]) not in asked:
            warn(f"{fn.path}: {n}: no goal is asked at its place {fn.by_name[i]}")
        env[m.group(1)] = (i, m.group(1))

    def ty(m):
        i = fn.place(m.group(1))
        return m.group(0) if i is None else f"goal.{fn.by_name[i]}"

    invn = "|".join(re.escape(k) for k in invs) or "\0"
    text = re.sub(r"tie\.(" + IDENT + r")((?:\s+(?:" + invn + r"))*)", ty, text)
    if env and n:
        m = re.search(r"^(?:unfolding |" + re.escape(n) + r"\s(?!:))", text, re.M)
        k = m.start() if m else len(text)
        sig = paths(text[:k], dict(env), fn, warn, f"{fn.path}: {n}", fn.helpers)
        body = text[k:]
        ps = re.match(r"(?:unfolding [^\n]*\n)?" + re.escape(n) + r"((?:\s+(?!=\s)(?:" + IDENT + r"|\{[^}]*\}))*)\s*=", body)
        got = ps.group(1).split() if ps else []
        benv = {}
        # the names of the clause may be others than those of the signature
        names = re.findall(r"\(([^():]+) : ", text[:k])
        flat = [w for q in names for w in q.split()]
        for v, pl in env.items():
            if v in got or v not in flat or flat.index(v) >= len(got):
                benv[v] = pl
            else:
                w = got[flat.index(v)]
                benv[w] = (pl[0], w)
        text = sig + paths(body, benv, fn, warn, f"{fn.path}: {n}", fn.helpers)
    return text


def contracts(crate):
    """The names of the clauses of each function's ensures, by module path."""
    out = {}
    src = os.path.join(crate, "src")
    for d, _, fs in os.walk(src):
        for f in fs:
            if not f.endswith(".rt"):
                continue
            mod = os.path.relpath(os.path.join(d, f), src)[:-3]
            mod = "" if mod in ("lib", "main") else mod.replace("/", ".").replace(".mod", "") + "."
            cur = None
            for l in open(os.path.join(d, f)):
                m = re.match(r"\s*(?:pub )?(?:unsafe )?(?:extern \"C\" )?fn (\w+)", l)
                if m:
                    cur = mod + m.group(1)
                    out[cur] = []
                m = re.match(r"\s*ensures (\w+) \{", l)
                if m and cur:
                    out[cur].append(m.group(1))
    return out


def main():
    global ENSURES
    data = json.load(open(NAMES))
    ENSURES = contracts(CRATE)
    for key, d in data.items():
        m = re.match(r"Rattle-\w+-proofs\.(.*)\.Lts(.*)$", key)
        if not m or m.group(2):
            continue
        path = m.group(1)
        if ONLY and path not in ONLY and path.split(".")[-1] not in ONLY:
            continue
        folder = os.path.join(CRATE, "proofs", *path.split("."))
        file = os.path.join(folder, "Proof.antt")
        if not os.path.exists(file):
            continue
        fn = Fn(path, d)
        fn.ensures = ENSURES.get(path, [])
        try:
            got = convert(open(file).read(), fn, lambda s: print("look:", s))
        except Exception as e:
            print("failed:", path, repr(e))
            continue
        if got is None:
            print("by hand:", path)
            continue
        inv, ans = got
        for name, text in (("Invariants.antt", inv), ("Answers.antt", ans)):
            if text:
                open(os.path.join(folder, name), "w").write(text)
        os.remove(file)
        if not os.listdir(folder):
            os.rmdir(folder)


main()
