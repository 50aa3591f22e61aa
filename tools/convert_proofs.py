#!/usr/bin/env python3
"""convert_proofs.py CRATE NAMES.json [FUNCTION-DIR..]: at the top of a repository, turns crates/CRATE/proofs/**/F/Proof.antt
(tie form) into Invariants.antt and Answers.antt, by the names that `rt check --generated DIR --old-names` wrote.
What can't be mapped is printed, with the old text; it stays in the history."""
import json, os, re, sys, glob

crate, names = sys.argv[1], json.load(open(sys.argv[2]))
only = sys.argv[3:]
base = f"crates/{crate}/proofs"
W = r"[^\s(){}.;,@\"«»\[\]\\`|]+"
alike = lambda s: re.sub(r"_lem$|_law$", "", s).replace("-", "").replace("_", "").lower()

def blocks(text):
    """Splits declarations: list of (comment lines, head name, signature, unfolding, body)"""
    lines = text.split("\n")
    uses, decls, i = [], [], 0
    while i < len(lines) and (lines[i].startswith("use ") or not lines[i].strip()):
        if lines[i].strip(): uses.append(lines[i])
        i += 1
    cur = []
    groups = []
    for l in lines[i:]:
        if l and not l[0].isspace() and cur and (l.startswith("--") or re.match(r"(abbrev |pub |unfoldable )*" + W + r" :( |$)", l)):
            # new declaration starts at a comment or signature; keep comments with next
            if not all(x.startswith("--") or not x.strip() for x in cur):
                groups.append(cur); cur = []
        cur.append(l)
    if cur: groups.append(cur)
    return uses, groups

def convert(path):
    d = os.path.dirname(path)
    rel = os.path.relpath(d, base)
    key = f"Rattle-{crate}-proofs." + rel.replace("/", ".") + ".Lts"
    if key not in names: return f"{rel}: no names (cycle?)"
    N = names[key]
    text = open(path, encoding="utf-8").read()
    uses, groups = blocks(text)
    needs = {}
    for (old, new), at in zip(N["needs"], N["asked_at"]):
        needs[alike(old)] = (new, at)
    for (old, new), at in zip(N["needs"], N["asked_at"]):
        needs.setdefault("overflow" + alike(old), (new, at))
        if old.startswith("part-"):
            needs.setdefault("slicebounds" + alike(old[5:]), (new, at))
        for a, b in (("element_copy_out", "array_read"), ("element_copy_out", "slice_read"), ("shared_slice_read", "array_read"), ("array_read", "shared_slice_read"), ("slice_read", "array_read"), ("index", "array_read")):
            if old.startswith(a + "-"):
                needs.setdefault(alike(b) + alike(old[len(a) + 1 :]), (new, at))
    places = {p[0]: p for p in N["places"]}
    armof = {p[0]: a for p, a in zip(N["places"], N["arms"])}
    loops = {}
    for k, ((old, new), vs) in enumerate(N["loops"]):
        loops[alike(old)] = (new, vs, N["changed"][k])
    left = []

    def steps(place):
        chain = []
        while place is not None and place in places:
            chain.append(place); place = places[place][1]
        return chain

    def path_of(m, place, where):
        words = m.group(0).split(".")
        words = [w for w in words[1:] if w != "before"]
        if not words: return m.group(0)
        lab, rest = words[0], words[1:]
        if lab in ("args", "requires", "ranges", "type_inv", "captures", "utf8"): return "c." + ".".join(words)
        if lab in ("well-formed", "well_formed"): return "c." + ".".join(["type_inv"] + rest)
        chain = steps(place) if place else list(places)
        # an arm's fact
        best = None
        for p in chain:
            a = armof.get(p)
            if a:
                for new, old, fields in a[2]:
                    if old and alike(old) == alike(lab) and [alike(x) for x in rest[: len(fields)]] == [alike(x) for x in fields]:
                        if best is None or len(fields) > best[1]: best = (f"c.{a[0]}.{new}", len(fields))
            if best: break
        for p in chain:
            pl = places[p]
            if pl[2] and pl[2][0] and alike(pl[2][0]) == alike(lab):
                ren = {alike(o): n for o, n in pl[4]}
                r = list(rest)
                if r and alike(r[0]) in ren: r[0] = ren[alike(r[0])]
                cand = "c." + ".".join([pl[2][1]] + r)
                if best and best[1] > 0: break
                return cand
        if best: return best[0] + "".join("." + x for x in rest[best[1]:])
        left.append(f"{where}: {m.group(0)}")
        return m.group(0)

    inv, ans, helpers = [], [], []
    old_left = []
    for g in groups:
        body = "\n".join(g).strip("\n")
        sig = next((l for l in g if re.match(r"(abbrev |pub |unfoldable )*" + W + r" :( |$)", l)), None)
        if sig is None: continue
        m = re.match(r"((?:abbrev |pub |unfoldable )*)(" + W + r") :\s*(.*)", sig)
        mods, name, ty = m.groups()
        if name.endswith("-spec") or name.endswith("_spec"): continue
        k = re.match(r"tie\.(invariant|decreases)-(" + W + ")", ty)
        if k:
            new = loops.get(alike(k.group(2)))
            if not new: left.append(f"{name}: loop {ty}"); continue
            loopname, vs, changed = new
            eq = body.split("\n", g.index(sig) + 1)
            text_eq = "\n".join(l for l in g[g.index(sig) + 1:]).rstrip()
            unf = ""
            mm = re.match(r"((?:unfolding [^\n]*\n)?)" + re.escape(name) + r"\s+([^=]*?)\s*=\s*(.*)", text_eq, re.S)
            if not mm: left.append(f"{name}: invariant not read"); continue
            unf, args, expr = mm.groups()
            args = args.split()
            want = [(f"l.initial.{v}" if c else f"l.{v}") for v, c in zip(vs, changed)] + [f"l.{v}" for v, c in zip(vs, changed) if c]
            if len(args) != len(want): left.append(f"{name}: {len(args)} arguments, {len(want)} now: {args} {want}")
            sub = dict(zip(args, want))
            sub.pop("_", None)
            def turn(t):
                w = t.group(0)
                if t.start() and expr[t.start() - 1] == ".": return w
                return sub.get(w, w)
            binders = set(re.findall(r"λ\s+\(?(" + W + ")", expr)) | set(re.findall(r"\((" + W + r") :", expr))
            clash = binders & set(sub)
            if clash: left.append(f"{name}: binders {clash}")
            expr = re.sub(W, turn, expr)
            gname = f"{k.group(1)}-{loopname}"
            inv.append(f"abbrev pub {gname} : goal.{gname}\n{unf}{gname} l = {expr}")
            continue
        k = re.match(r"tie\.Need-(" + W + r")(.*)", ty)
        if k:
            got = needs.get(alike(k.group(1)))
            if not got:
                if not re.search(r"= search rules\s*$|= (omega arith|refl)\s*$", body): old_left.append(body)
                continue
            new, (oldplace, newplace) = got
            after = "\n".join(g[g.index(sig) + 1:]).rstrip()
            mm = re.match(r"((?:unfolding [^\n]*\n)?)" + re.escape(name) + r"((?:\s+" + W + r")*?)\s*=\s*(.*)", after, re.S)
            if not mm: left.append(f"{name}: not read"); old_left.append(body); continue
            unf, args, expr = mm.groups()
            if re.fullmatch(r"search rules\s*", expr) and not unf: continue
            if re.fullmatch(r"search rules\s*", expr): pass
            n0 = len(left)
            expr = re.sub(r"(?<![\w.'])c(?:\.before)*(?:\.[A-Za-z0-9_'·-]+)+", lambda t: path_of(t, oldplace, new), expr)
            args = args.replace("κs", "").rstrip()
            if "κs" in expr: left.append(f"{new}: uses κs")
            comments = "\n".join(l for l in g[: g.index(sig)] if l.startswith("--") and not re.match(r"-- src/", l))
            if len(left) > n0: old_left.append(body)
            ans.append((comments + "\n" if comments else "") + f"pub {new} : goal.{new}\n{unf}{new}{args} = {expr}")
            continue
        # a lemma of its own
        if "tie." in body: left.append(f"{name}: cites tie"); old_left.append(body)
        helpers.append(body)
    F = rel.replace("/", ".")
    head = [u for u in uses if ".Statement." not in u and not re.search(r"\.Tie( as|\.)", u)]
    def write(fname, kind, decls, extra=()):
        p = os.path.join(d, fname)
        all_ = "\n\n".join([*extra, *decls])
        toks = set(re.findall(W, all_))
        keep = []
        for u in head:
            mm = re.match(r"use ([^{]*)\.\{(.*)\}$", u)
            if mm:
                its = [x.strip() for x in mm.group(2).split(",")]
                its = [x for x in its if x.split(" as ")[-1].strip() in toks or (("◌" in x) and any(p and p in all_ for p in x.split(" as ")[-1].strip("◌ ").split("◌")))]
                if its: keep.append(f"use {mm.group(1)}.{{{', '.join(its)}}}")
            else:
                last = u.split(" as ")[-1].split(".")[-1].strip()
                if last in toks: keep.append(u)
        keep.append(f"use Rattle.{crate}.proofs.{F}.{kind} as goal")
        open(p, "w", encoding="utf-8").write("\n".join(keep) + "\n\n" + all_ + "\n")
    if inv:
        used = [h for h in helpers if any(re.search(r"(?<![\w-])" + re.escape(re.match(r"(?:--[^\n]*\n)*(?:abbrev |pub |unfoldable )*(" + W + ")", h).group(1)) + r"(?![\w-])", i) for i in inv)]
        write("Invariants.antt", "Given", inv, used)
        if used: left.append("helpers in Invariants: look")
    if ans: write("Answers.antt", "Goals", ans, helpers)
    elif helpers: old_left += helpers
    os.remove(path)
    if old_left:
        left += old_left
    return "\n".join(f"{rel}: {x}" for x in left) or None

for path in sorted(glob.glob(f"{base}/**/Proof.antt", recursive=True)):
    d = os.path.relpath(os.path.dirname(path), base)
    if only and d not in only: continue
    if "tie." not in open(path).read(): print(f"{d}: not of the tie form"); continue
    r = convert(path)
    if r: print(r)
