#!/usr/bin/env python3
"""Turns proofs that walk the code by hand (proofs/F/Proof.antt) into invariants and answers, as today's Rattle reads them.

usage: python3 tools/answers.py NAMES CRATE [FUNCTION..]     at the top; NAMES is the names.json that `rt check --generated DIR
       --old-names` writes in the crate's folder

For each function: an answer `X : tie.Need-N` gets the name that the goal has today; a proof that only says `search rules` goes, since
the check tries that by itself; what stands before a place (`c.before.before.x`) is a field of `c`; a loop's invariant and measure are
written over the record `l`; a helper that takes a place of the code is put into the answers that use it. What it can't turn it says,
and leaves that function's file alone. Nothing is proved here: rt check decides.
"""
import json
import os
import re
import sys

ID = r"[A-Za-zα-ωΓ-Ω_][A-Za-z0-9_'₀-₉-]*"


def norm(s):
    return s.replace("-", "_")


class Cannot(Exception):
    pass


def matching(s, i):
    """The index behind the bracket that closes the one at i."""
    depth = 0
    while i < len(s):
        if s[i] in "([{":
            depth += 1
        elif s[i] in ")]}":
            depth -= 1
            if depth == 0:
                return i + 1
        i += 1
    raise Cannot("brackets")


def atoms(s):
    """The arguments of an application, as texts."""
    out, i = [], 0
    while i < len(s):
        if s[i].isspace():
            i += 1
            continue
        j = i
        while j < len(s) and not s[j].isspace():
            j = matching(s, j) if s[j] in "([{" else j + 1
        out.append(s[i:j])
        i = j
    return out


def blocks(text):
    """Top-level declarations: (comment, name, type text, unfolding lines, clauses text)."""
    lines = text.split("\n")
    i, comment = 0, []
    head, uses, decls = [], [], []
    while i < len(lines) and lines[i].startswith("--"):
        head.append(lines[i])
        i += 1
    while i < len(lines):
        l = lines[i]
        if l.startswith("use "):
            j = i + 1
            while j < len(lines) and (lines[j].startswith("  ") or lines[j].startswith("}")):
                j += 1
            uses.append(" ".join(x.strip() for x in lines[i:j]))
            i = j
        elif not l.strip():
            i += 1
        elif l.startswith("--"):
            comment.append(l)
            i += 1
        else:
            j = i + 1
            while j < len(lines) and lines[j].strip() != "":
                j += 1
            body = "\n".join(lines[i:j])
            m = re.match(r"(?:(?:pub|abbrev|unfoldable) )*(\+?" + ID + r") :", body)
            if not m:
                raise Cannot("a declaration: " + body[:60])
            mark = body[: m.start(1)]
            name = m.group(1)
            rest = body[m.end() :]
            # the signature goes to the line that begins at column 0 with 'unfolding' or the name
            k = re.search(r"\n(?=unfolding |" + re.escape(name) + r"[ =\n])", rest)
            if not k:
                raise Cannot("no clauses: " + name)
            sig, eqs = rest[: k.start()], rest[k.start() + 1 :]
            unf = ""
            if eqs.startswith("unfolding "):
                u = eqs.index("\n")
                unf, eqs = eqs[:u], eqs[u + 1 :]
            decls.append(dict(comment=comment, mark=mark, name=name, sig=sig.strip(), unf=unf, eqs=eqs))
            comment = []
            i = j
    return head, uses, decls


def clause(d):
    """The one equation of a declaration: its patterns and its body."""
    eqs = d["eqs"]
    if len(re.findall(r"(?m)^" + re.escape(d["name"]) + r"[ =\n]", eqs)) != 1:
        raise Cannot("several clauses: " + d["name"])
    rest = eqs[len(d["name"]) :]
    i = depth = 0
    while i < len(rest):
        if rest[i] in "([{":
            i = matching(rest, i)
            continue
        if rest[i] == "=" and rest[i - 1] in " \n" and rest[i + 1 : i + 2] in (" ", "\n", ""):
            break
        i += 1
    return atoms(rest[:i]), rest[i + 1 :].strip("\n")


class Turn:
    def __init__(self, info, crate, recursive=False):
        self.info = info
        self.recursive = recursive
        self.step = {}
        self.callee = {}
        for place in info["places"]:
            old, new = place[2]
            if old:
                self.step[norm(old)] = new
                if place[3]:
                    self.callee[new] = place[3]
        self.params = info["params"]
        self.given = {}
        for typed in info["typed"]:
            for var, known in typed:
                self.given.setdefault(norm(known), var)
        # what an arm of a match binds, by the step and the path that had it
        self.arms = {}
        for arm in info["arms"]:
            if arm:
                for field, step, at in arm[2]:
                    if at and not field.endswith("-own"):
                        self.arms[(norm(step), tuple(at))] = [arm[0], field]
        self.arm_steps = {k[0] for k in self.arms if k[1][0] == "given"}
        self.loops = info["loops"]
        self.loop_vars = {names[1]: vs for names, vs in self.loops}

    def is_typed(self, var, known):
        """Whether the goal's `type_inv` has that fact of that variable."""
        place = self.place_of.get(self.current)
        for name, typed in zip(self.info["places_by_name"], self.info["typed"]):
            if name == place:
                return any(v == var and norm(k) == known for v, k in typed)
        return True

    def names_of(self, stepname):
        c = self.callee.get(stepname)
        if c:
            return self.params.get(c)
        return self.loop_vars.get(stepname)

    def path(self, comps, stepname=None):
        """A path behind c, or behind an alias of a step."""
        out = []
        i = 0
        if stepname is None:
            while i < len(comps) and comps[i] == "before":
                i += 1
            if i == len(comps):
                return None, None
            first = comps[i]
            i += 1
            if first in ("pre", "requires"):
                own = (self.info.get("pre") or {}).get("fields") or []
                if first == "pre" and self.recursive and comps[i : i + 1] == ["1"]:
                    i += 1
                first = "requires"
                if len(own) > 1 and comps[i : i + 1] and comps[i].isdigit() and int(comps[i]) < len(own):
                    return [first, own[int(comps[i])]] + comps[i + 1 :], None
            key = norm(first.strip("«»"))
            if key in self.arm_steps:
                for n in range(len(comps), i, -1):
                    arm = self.arms.get((key, tuple(comps[i:n])))
                    if arm:
                        return arm + comps[n:], None
            if key in self.given and comps[i : i + 1] == ["given"] and self.is_typed(self.given[key], key):
                return ["type_inv", self.given[key]] + comps[i + 1 :], None
            if key in self.step:
                stepname = self.step[key]
                first = stepname
            out.append(first)
        while i < len(comps):
            comp = comps[i]
            if comp in ("new", "auto", "last", "kept") and stepname in self.callee and i + 1 < len(comps) and comps[i + 1] in ("0", "1"):
                j, n = i + 1, 0
                while j < len(comps) and comps[j] == "1":
                    n += 1
                    j += 1
                if j < len(comps) and comps[j] == "0" and self.names_of(stepname):
                    names = self.names_of(stepname)
                    if n < len(names):
                        out += [{"last": "new", "kept": "auto"}.get(comp, comp), names[n]]
                        i = j + 1
                        continue
            if comp == "inv" and stepname in self.loop_vars:
                comp = "invariant"
            out.append(comp)
            i += 1
        return out, stepname

    def body(self, text, ctx):
        """The body with its places flattened; ctx is the name of the place that is handed in."""
        # a bound variable that has the name of a place gets another
        places = set(re.findall(r"let (" + ID + r") = ", text)) | {ctx}
        at = 0
        while True:
            m = re.search(r"\(λ \((\w+) : [^()]*\)\.", text[at:])
            if not m:
                break
            start = at + m.start()
            at = start + 1
            if m.group(1) in places:
                end = matching(text, start)
                span = text[start:end]
                new = next(v for v in ("v", "w", "x", "y", "z") if not re.search(r"(?<![\w.])" + v + r"(?![\w'])", span))
                span = re.sub(r"(?<![\w.'])" + m.group(1) + r"(?![\w'])", new, span)
                text = text[:start] + span + text[end:]
        contexts = {ctx}
        steps = {}

        def paths(t):
            def one(m):
                name, rest = m.group(1), m.group(2)
                comps = re.findall(r"\.(«[^»]*»|[A-Za-z0-9_'₀-₉-]+)", rest)
                if name in contexts:
                    p, _ = self.path(comps)
                    return "c" if p is None else "c." + ".".join(p)
                if name in steps:
                    p, _ = self.path(comps, steps[name])
                    return ".".join([name] + p)
                return m.group(0)

            return re.sub(r"(?<![\w.'₀-₉»-])(" + ID + r")((?:\.(?:«[^»]*»|[A-Za-z0-9_'₀-₉-]+))*)(?![\w'₀-₉-])", one, t)

        # lets that name a place or a step, in order
        while True:
            changed = False
            for m in re.finditer(r"(?<![\w'-])let (" + ID + r") = (" + ID + r")((?:\.(?:«[^»]*»|[A-Za-z0-9_'-]+))*) in\s*", text):
                name, base, rest = m.groups()
                comps = re.findall(r"\.(«[^»]*»|[A-Za-z0-9_'-]+)", rest)
                if base in contexts and all(x == "before" for x in comps):
                    contexts.add(name)
                    text = text[: m.start()] + text[m.end() :]
                    changed = True
                    break
                if base in contexts and len(comps) >= 2 and comps[-1] == "given" and norm(comps[-2]) in self.arm_steps:
                    tail = text[m.end() :]
                    tail = re.sub(r"(?<![\w.'-])" + re.escape(name) + r"(?=\.)", (base + rest).replace("\\", ""), tail)
                    text = text[: m.start()] + tail
                    changed = True
                    break
                if base in contexts and name not in steps:
                    p, s = self.path(comps)
                    if p is not None and len(p) == 1 and s:
                        steps[name] = s
            if not changed:
                break
        return paths(text).replace("(c)", "c")


def helper_uses(text, helpers):
    return [h for h in helpers if re.search(r"(?<![\w.'₀-₉-])" + re.escape(h) + r"(?![\w'₀-₉-])", text)]


def spec_args(decl):
    m = re.search(r"\(tie\.spec\b", decl["eqs"])
    if not m:
        m = re.search(r"tie\.close\s+tie\.spec\b", decl["eqs"])
        if m:
            return []
        raise Cannot("no tie.spec")
    end = matching(decl["eqs"], m.start())
    return atoms(decl["eqs"][m.end() : end - 1])


TIE = re.compile(r"tie\.(After|In|At|Start|Then|Else|Arm|Before|End|Joined)[\w'-]*")


def place_type(t):
    t = t.strip()
    t = t[1:-1].strip() if t.startswith("(") and matching(t, 0) == len(t) else t
    return bool(TIE.match(t))


def split_arrows(sig):
    """A type as binders and a result: [('f', type) or (None, type)], result."""
    out, i, start = [], 0, 0
    while i < len(sig):
        if sig[i] in "([{":
            i = matching(sig, i)
            continue
        if sig[i] == "→":
            out.append(sig[start:i].strip())
            start = i + 1
        i += 1
    out.append(sig[start:].strip())
    binders = []
    for b in out[:-1]:
        # several binders may stand side by side: (f : A) (k : ℕ)
        for a in atoms(b) if b.startswith("(") and all(x.startswith(("(", "{")) and " : " in x for x in atoms(b)) else [b]:
            m = re.match(r"[({](.*?) : (.*)[)}]$", a, re.S)
            if m and " : " in a:
                for n in m.group(1).split():
                    binders.append((n, m.group(2), a[0]))
            else:
                binders.append((None, a, "("))
    return binders, out[-1]


def alone(text, fn, lts):
    """A proof of one function that calls itself, written as one of a function that does not: the measure's value goes."""
    types = {}
    text = re.sub(r"(?<![\w'.-])" + lts + r"\.(Need|After|At|In|Start|Then|Else|Joined)[_-]?([\w'-]*)((?: \((?!λ)[^()]*\)| [\w.μ]+)*)", lambda m: "tie." + m.group(1) + ("-" + m.group(2) if m.group(2) else ""), text)
    text = text.replace("(t : ℕ) → ", "").replace("(t : ℕ) (", "(").replace("(t : ℕ) ", "")
    text = re.sub(r"(?<=[\w)']) t(?= [\w(=])", "", text)
    text = re.sub(r"(?<=[\w)']) t(?=[)])", "", text)
    for m in re.finditer(r"(?m)^(?:--[^\n]*\n)*abbrev (\w+) : ℕ → Type 0\n\1 = (tie\.[\w'-]+)\n", text):
        types[m.group(1)] = m.group(2)
    text = re.sub(r"(?m)^(?:--[^\n]*\n)*abbrev (\w+) : ℕ → Type 0\n\1 = (tie\.[\w'-]+)\n", "", text)
    for n, v in types.items():
        text = re.sub(r"(?<![\w'.-])" + n + r"(?: t)?(?![\w'-])", v, text)
    return text


def turn(crate, folder, info, fn=None):
    path = os.path.join(folder, "Proof.antt")
    text = open(path).read()
    recursive = fn is not None
    measure = None
    if recursive:
        lts = norm(fn) + "_lts"
        text = alone(text, fn, lts)
    head, uses, decls = blocks(text)
    t = Turn(info, crate, recursive)
    if recursive:
        kept_decls = []
        for d in decls:
            if re.match(r"Measures ", d["sig"]):
                measure = d
            elif re.match(r"ℕ → (In \d|\w+_lts\.Claims)", d["sig"]):
                pass
            else:
                m = re.match(lts + r"\.(invariant|decreases)_", d["sig"])
                if m:
                    d["sig"] = f"tie.{m.group(1)}-loop"
                kept_decls.append(d)
        decls = kept_decls
        spec = decls[-1]
        m = re.search(lts + r"\.spec\s+(?:\([^()]*\)|\S+)\s+(?:\([^()]*\)|\S+)\s+\S+", spec["eqs"])
        if not m:
            raise Cannot("no spec")
        rest = re.sub(r"\((\w+)(?: t)?\)", r"\1", spec["eqs"][m.end() :])
        spec["eqs"] = "tie.close (tie.spec " + rest + ")"
    needs = [new for _, new in info["needs"]]
    by_old = {norm(old): new for old, new in info["needs"]}
    spec = decls[-1]
    if "tie.close" not in spec["eqs"]:
        raise Cannot("no tie.close")
    args = spec_args(spec)
    nloops = len(info["loops"])
    loop_defs = {}
    helpers, locals_, answers = {}, [], {}
    order = []
    named = {}
    for d in decls[:-1]:
        m = re.match(r"tie\.(invariant|decreases)-", d["sig"])
        n = re.match(r"tie\.Need-([\w'-]+)", d["sig"])
        if m:
            loop_defs[d["name"]] = (m.group(1), d)
        elif n:
            named[d["name"]] = (n.group(1), d)
        elif "tie." in d["sig"]:
            binders, result = split_arrows(d["sig"])
            if not binders or not place_type(binders[0][1]):
                raise Cannot("a helper: " + d["name"])
            helpers[d["name"]] = d
        else:
            locals_.append(d)
    if len(args) != 2 * nloops + len(needs):
        raise Cannot(f"{len(args)} arguments for {nloops} loops and {len(needs)} goals")
    # loops: the arguments before the answers, in pairs
    loops = []
    for i in range(nloops):
        loops.append((args[2 * i], args[2 * i + 1]))
    for a, new in zip(args[2 * nloops :], needs):
        if a in named:
            old, d = named[a]
            pats, body = clause(d)
            order.append((decls.index(d), new, d["comment"], pats, body, d["unf"]))
        else:
            m = re.match(r"\(λ ((?:[\w'κ]+ )*[\w'κ]+)\. (.*)\)$", a, re.S)
            if m:
                order.append((len(decls), new, [], m.group(1).split(), m.group(2), ""))
            elif re.match(ID + "$", a):
                raise Cannot("an answer: " + a)
            else:
                raise Cannot("an argument: " + a[:60])
    # answers by other answers' names: an answer may cite another
    new_name = {a: new for a, new in zip(args[2 * nloops :], needs) if a in named}

    place_of = {new: at[1] for (_, new), at in zip(info["needs"], info["asked_at"])}
    t.place_of = place_of
    t.current = None
    place_helpers = {}
    for name, d in helpers.items():
        binders, result = split_arrows(d["sig"])
        pats, body = clause(d)
        place_helpers[name] = (d, binders, result, pats, body)

    def alias_only(body, ctx):
        return re.fullmatch(re.escape(ctx) + r"(?:\.before)*", body.strip()) is not None

    # helpers that only lead back are places themselves
    ways = {n for n, (d, b, r, p, body) in place_helpers.items() if TIE.match(r.strip())}

    def strip_ways(text, contexts=("c",)):
        for w in ways:
            while True:
                m = re.search(r"\(" + re.escape(w) + r" ((?:\([^()]*\)|[\w'.₀-₉-])+)\)", text)
                if not m:
                    break
                text = text[: m.start()] + m.group(1) + text[m.end() :]
            text = re.sub(r"(?<![\w.'-])" + re.escape(w) + r" (?=[\w(])", "", text)
        return text

    def cites(text):
        """Other answers and helpers that a text names, each applied to a place, written without it."""
        return text

    def behind_place(sig):
        """A helper's type behind the place that it takes."""
        if sig.startswith("("):
            rest = sig[matching(sig, 0) :].strip()
        else:
            i = 0
            while sig[i] != "→":
                i = matching(sig, i) if sig[i] in "([{" else i + 1
            rest = sig[i:]
        return rest[1:].strip() if rest.startswith("→") else rest

    def local_let(name, seen):
        d, binders, result, pats, body = place_helpers[name]
        body = turned_body(body, pats[0], seen)
        typ = turned_body(behind_place(d["sig"]), binders[0][0] or pats[0], seen)
        lam = " ".join(pats[1:])
        text = f"let {name} : {typ} = {'λ ' + lam + '. ' if lam else ''}{body.strip()} in"
        return d["comment"], re.sub(r"\s*\n\s*", " ", text)

    def needed(text):
        """The helpers that a text uses, those that they use first."""
        got = []

        def visit(tx):
            for h in place_helpers:
                if h in ways:
                    continue
                if re.search(r"(?<![\w.'₀-₉-])" + re.escape(h) + r"(?![\w'₀-₉-])", tx) and h not in got:
                    d, b, r, p, body = place_helpers[h]
                    visit(body)
                    visit(r)
                    for x in b[1:]:
                        visit(x[1])
                    if h not in got:
                        got.append(h)

        visit(text)
        for a in named:
            if re.search(r"(?<![\w.'₀-₉-])" + re.escape(a) + r" ", text) and place_of.get(new_name.get(a)) != place_of.get(t.current):
                visit(clause(named[a][1])[1])
        return got

    def turned_body(text, ctx, seen=()):
        text = strip_ways(text)
        text = t.body(text, ctx)
        # a test of a negation says today what it negates
        text = re.sub(r"\(not-(?:true|false) (?:_|[^\s()]+|\([^()]*\)) (c\.[^\s()]+\.(?:true|false))\)", r"\1", text)
        text = re.sub(r"(?<![\w'-])not-(?:true|false) (?:_|[^\s()]+|\([^()]*\)) (c\.[^\s(),]+\.(?:true|false))(?![\w.])", r"\1", text)
        for h in place_helpers:
            if h in ways:
                continue
            # applied to a place: the place goes
            text = re.sub(r"\(" + re.escape(h) + r" c\)", h, text)
            text = re.sub(r"(?<![\w.'₀-₉-])" + re.escape(h) + r" c(?![\w'₀-₉.-])", h, text)
        for a, new in new_name.items():
            if re.search(r"(?<![\w.'₀-₉-])" + re.escape(a) + r" c(?![\w'₀-₉.-])", text) and place_of.get(new) != place_of.get(t.current):
                # an answer at another place of the code: its text
                pats, inner = clause(named[a][1])
                if len([x for x in pats[1:] if not x.startswith("κ")]) == 0:
                    inner = re.sub(r"\s*\n\s*", " ", turned_body(inner, pats[0], seen).strip())
                    if not re.fullmatch(r"[\w.]+", inner):
                        inner = "(" + inner + ")"
                    text = re.sub(r"(?<![\w.'₀-₉-])" + re.escape(a) + r" c(?: (?:c\.lifetimes|κs))?(?![\w'₀-₉.-])", lambda m: inner, text)
                    text = text.replace("((" + inner[1:-1] + "))", inner) if inner.startswith("(") else text
                    continue
            text = re.sub(r"(?<![\w.'₀-₉-])" + re.escape(a) + r"(?= c(?![\w'₀-₉.-]))", new, text)
            # the lifetimes are no argument today
            text = re.sub(r"(?<![\w.'₀-₉-])" + re.escape(new) + r" c (?:c\.lifetimes|κs)(?![\w.])", new + " c", text)
        return text

    out = []
    kept = []
    for _, new, comment, pats, body, unf in sorted(order, key=lambda x: x[0]):
        pats = list(pats)
        ctx = pats[0]
        rest = [p for p in pats[1:] if not re.match("κ", p)]
        plain = body.strip()
        if plain == "search rules":
            continue
        t.current = new
        full = turned_body(body, ctx)
        lets = []
        for h in needed(body):
            c, text = local_let(h, ())
            lets.append(("\n".join("    " + x for x in c) + "\n" if c else "") + "    " + text)
        eq = f"{new} {'t ' if recursive else ''}{' '.join(['c'] + rest)} ="
        stripped = full.strip("\n")
        if lets:
            first = stripped.strip() if "\n" not in stripped.strip() else stripped
            if not stripped.startswith(" "):
                first = "    " + stripped
            inner = "\n".join(lets) + "\n" + (first if first.startswith("    ") else "    " + first)
            eq += "\n" + inner
        elif "\n" in stripped or len(eq) + len(stripped) > 150:
            eq += ("\n" if not stripped.startswith("\n") else "") + (stripped if stripped.startswith("    ") else "    " + stripped.strip())
        else:
            eq += " " + stripped.strip()
        kept.append("\n".join(comment + [f"pub {new} : goal.{new}"] + ([unf] if unf else []) + [eq]))
    # invariants
    invs = []
    for i, (inv, dec) in enumerate(loops):
        names, vs = info["loops"][i]
        changed = info["changed"][i]
        for kind, arg in (("invariant", inv), ("decreases", dec)):
            if arg in loop_defs:
                d = loop_defs[arg][1]
                pats, body = clause(d)
                comment = d["comment"]
            else:
                m = re.match(r"\(λ (.*?)\. (.*)\)$", arg, re.S)
                if not m:
                    raise Cannot("a loop's argument: " + arg[:50])
                pats, body, comment = m.group(1).split(), m.group(2), []
            want = len(vs) + sum(changed)
            if len(pats) != want:
                raise Cannot(f"{len(pats)} variables for {want} in {names}: {pats} {vs}")
            sub = {}
            for v, p, ch in zip(vs, pats, changed):
                sub[p] = f"l.initial.{v}" if ch else f"l.{v}"
            now = [v for v, ch in zip(vs, changed) if ch]
            for v, p in zip(now, pats[len(vs) :]):
                sub[p] = f"l.{v}"
            body = re.sub(r"(?<![\w.'₀-₉»-])«?(" + ID + r")»?(?![\w'₀-₉-])(?! = )", lambda m: sub.get(m.group(1), m.group(0)), body)
            new = f"{kind}-{names[1]}"
            eq = f"{new} l ="
            eq += ("\n" + body.strip("\n") if "\n" in body.strip() else " " + body.strip())
            invs.append("\n".join(comment + [f"abbrev pub {new} : goal.{new}", eq]))
    if measure:
        pats, body = clause(measure)
        params = t.params.get(next((k for k in t.params if k.endswith("::" + fn)), ""))
        if not params:
            raise Cannot("no parameters")

        def arg(m):
            n = m.group(1).count("1")
            return "l." + params[n]

        body = re.sub(r"(?<![\w.])" + pats[-1] + r"((?:\.1)*)\.0(?![\w])", arg, body)
        invs.insert(0, "\n".join(measure["comment"] + [f"abbrev pub decreases-{fn} : goal.decreases-{fn}", f"decreases-{fn} l = {body.strip()}"]))
    return head, uses, locals_, kept, invs, loop_defs


def write(crate, folder, result, module):
    head, uses, locals_, kept, invs, loop_defs = result
    keep = []
    for u in uses:
        if re.search(r"\.(Statement\.\{|Tie\b)", u) and f"Rattle.{crate}.proofs.{module}." in u:
            continue
        if re.search(r"\.proofs\.\w+\.(Reads|Kinds) as |\.Lts-\w+ as |borrow\.Fn\.|\.proofs\.\+\w+\.\{", u):
            continue
        keep.append(u)
    written = []
    inv_text = "\n\n".join(invs)
    loc_inv = []
    if invs:
        def uses_local(text):
            return [d for d in locals_ if re.search(r"(?<![\w.'-])" + re.escape(d["name"]) + r"(?![\w'-])", text)]

        todo = uses_local(inv_text)
        while todo:
            d = todo.pop()
            if d not in loc_inv:
                loc_inv.append(d)
                todo += uses_local(d["sig"] + d["eqs"])
        loc_inv = [d for d in locals_ if d in loc_inv]

    def decl(d, pub):
        mark = d["mark"]
        if pub and "pub" not in mark:
            mark = mark + "pub "
        return "\n".join(d["comment"] + [f"{mark}{d['name']} : {d['sig']}"] + ([d["unf"]] if d["unf"] else []) + [d["eqs"]])

    loc_ans = [d for d in locals_ if d not in loc_inv]
    if invs:
        with open(os.path.join(folder, "Invariants.antt"), "w") as f:
            f.write("\n".join(head + keep + [f"use Rattle.{crate}.proofs.{module}.Given as goal"]) + "\n\n")
            f.write("\n\n".join([decl(d, True) for d in loc_inv] + [inv_text]) + "\n")
        written.append("Invariants.antt")
    if kept or loc_ans:
        with open(os.path.join(folder, "Answers.antt"), "w") as f:
            extra = []
            if loc_inv:
                extra = [f"use Rattle.{crate}.proofs.{module}.Invariants.{{{', '.join(d['name'] for d in loc_inv)}}}"]
            f.write("\n".join(head + keep + extra + [f"use Rattle.{crate}.proofs.{module}.Goals as goal"]) + "\n\n")
            f.write("\n\n".join([decl(d, False) for d in loc_ans] + kept) + "\n")
        written.append("Answers.antt")
    os.remove(os.path.join(folder, "Proof.antt"))
    return written


def main(argv):
    names = json.load(open(argv[0]))
    crate = argv[1]
    only = argv[2:]
    base = os.path.join("crates", crate, "proofs")
    for folder, dirs, files in sorted(os.walk(base)):
        if "Proof.antt" not in files:
            continue
        module = os.path.relpath(folder, base).replace(os.sep, ".")
        if only and module not in only:
            continue
        key = f"Rattle-{crate}-proofs.{module}.Lts"
        fn = None
        if module.startswith("+"):
            keys = [k for k in names if k.startswith(key + "-")]
            if len(keys) == 1:
                key = keys[0]
                fn = key.rsplit(".Lts-", 1)[1]
        if key not in names:
            print(f"left: {crate} {module}: no names")
            continue
        try:
            result = turn(crate, folder, names[key], fn)
        except Cannot as e:
            print(f"left: {crate} {module}: {e}")
            continue
        print(f"turned: {crate} {module}: {', '.join(write(crate, folder, result, module)) or 'nothing is needed'}")


if __name__ == "__main__":
    main(sys.argv[1:])
