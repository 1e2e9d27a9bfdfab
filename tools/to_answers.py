#!/usr/bin/env python3
"""Turns each proofs/F/Proof.antt of a crate into Invariants.antt and Answers.antt: goals and steps by their names of today, `before` left out,
and helpers over the places of the code written out where they are used.

usage: to_answers.py CRATE_DIR NAMES_JSON     names.json as `rt names OUT` writes it
"""
import glob, json, os, re, sys

C = r"[^\s(){}\[\],;.:=λ→↦|\"«»`]"
W = C + "+"
FIELDS = {"pre": "requires", "inv": "invariant", "taken": "true", "left": "false", "untaken": "false"}
ID = re.compile(r"(?<![\w.'₀-₉-])(" + W + ")")

def norm(s):
    return s.replace("_", "-")

def items(text):
    """Top-level items as lists of lines; comments belong to the item that follows."""
    out, cur, comments, name = [], [], [], ""
    for line in text.split("\n"):
        if line.startswith("--"):
            if cur: out.append(cur); cur = []
            if not line.startswith("-- ----"): comments.append(line)
        elif line and not line[0].isspace():
            m = re.match(r"(?:pub |abbrev |unfoldable )*(" + W + r")", line)
            n = m.group(1) if m else ""
            if cur and (line.startswith("unfolding ") or (n == name and not line.startswith(("use ", "abbrev ", "pub ")))):
                cur.append(line)
            else:
                if cur: out.append(cur)
                cur, comments, name = comments + [line], [], n
        elif line.strip():
            cur.append(line)
    if cur: out.append(cur)
    return out

def matching(t, i):
    """The place after the bracket that closes the one at i."""
    depth = 0
    for j in range(i, len(t)):
        if t[j] in "([{": depth += 1
        elif t[j] in ")]}":
            depth -= 1
            if not depth: return j + 1
    return len(t)

def atom(t, i):
    """An argument that begins at i: the place after it, or None."""
    while i < len(t) and t[i] in " \n": i += 1
    if i >= len(t): return None
    if t[i] in "(":
        j = matching(t, i)
    else:
        m = re.compile(W).match(t, i)
        if not m or m.group(0) in ("in", "let", "∙", "$", "λ", "elim", "record"): return None
        j = m.end()
    m = re.compile(r"(?:\.[\w'₀-₉-]+)*").match(t, j)
    return (i, m.end())

def subst(body, params, args):
    for p, a in zip(params, args):
        body = re.sub(r"(?<![\w.'₀-₉-])" + re.escape(p) + r"(?![\w'₀-₉-])", lambda m: a, body)
    return body

def expand(t, helpers, depth=0):
    if depth > 12: return t
    for name, (params, body) in helpers.items():
        pos = 0
        while True:
            m = re.compile(r"(?<![\w.'₀-₉-])" + re.escape(name) + r"(?![\w'₀-₉-])").search(t, pos)
            if not m: break
            j, args = m.end(), []
            for _ in params:
                a = atom(t, j)
                if a is None: break
                args.append(t[a[0]:a[1]]); j = a[1]
            if len(args) < len(params):
                pos = m.end(); continue
            new = subst(body, params, args)
            a = m.start(); b = j
            # (name x) as a whole
            if a and t[a-1] == "(" and b < len(t) and t[b] == ")":
                a -= 1; b += 1
            plain = re.fullmatch(W + r"(?:\.[\w'₀-₉-]+)*", new) or (new.startswith("(") and matching(new, 0) == len(new))
            new = new if plain else "(" + new + ")"
            t = t[:a] + new + t[b:]
            pos = a
            if len(t) > 60000: return t
    return t

def flat(lines):
    return re.sub(r"\s+", " ", " ".join(l.split(" -- ")[0].strip() for l in lines)).strip()

def convert(fn_dir, names, modpath):
    src = open(os.path.join(fn_dir, "Proof.antt"), encoding="utf-8").read()
    src = re.sub(r"(?<=\.)«([\w-]+)»", r"\1", src)
    needs, at = {}, {}
    for (o, n), a in zip(names["needs"], names["asked_at"] if len(names["asked_at"]) == len(names["needs"]) else [None] * len(names["needs"])):
        needs[norm(o)] = n
        at[n] = a
    for o, n in names["needs"]: needs.setdefault(norm(n), n)
    place = {p[0]: (i, p) for i, p in enumerate(names["places"])}
    arms_of = names.get("arms", [])

    def chain(p):
        """From the place to the start: (old step, new step, arm of it)."""
        out = []
        while p is not None:
            i, q = place[p]
            a = arms_of[i] if i < len(arms_of) else None
            out.append((norm(q[2][0]), q[2][1], a))
            p = q[1]
        return out

    everywhere = []
    for p in names["places"]: everywhere += chain(p[0])[:1]
    loops = {norm(l[0][0]): (l[0][1], l[1]) for l in names["loops"]}
    variables = {v for _, vs in loops.values() for v in vs}
    uses, invs, answers, head, helpers, kept, labels, searched = [], [], [], [], {}, [], {}, {}
    warn = []
    hoisted = {}
    for it in items(src):
        body = [l for l in it if not l.startswith("--")]
        comm = [l for l in it if l.startswith("--")]
        if not body: continue
        first = body[0]
        if first.startswith("use "):
            head += comm; uses.append(first); continue
        text = "\n".join(body)
        m = re.match(r"abbrev (?:pub )?(invariant|decreases)-(" + W + r") : tie\.", first)
        if m:
            kind, loop = m.group(1), norm(m.group(2))
            new, vs = loops.get(loop, ("?" + loop, []))
            d = re.search(r"^" + re.escape(m.group(1) + "-" + m.group(2)) + r"((?: " + W + r")*) =(.*)$", text, re.M | re.S)
            params, rhs = d.group(1).split(), d.group(2).rstrip()
            def sub(mm):
                w = mm.group(1)
                if w not in params or w == "_": return w
                base = w[:-1] if w.endswith("₀") else w
                return ("l.initial." if w.endswith("₀") and base in params else "l.") + base
            unf = [l for l in body if l.startswith("unfolding")]
            invs.append("\n".join(comm + [f"abbrev pub {kind}-{new} : goal.{kind}-{new}"] + unf + [f"{kind}-{new} l ={ID.sub(sub, rhs)}"]))
            continue
        if re.search(r"\btie\.(?:close|spec)\b", text): continue
        m = re.match(r"(?:pub )?(" + W + r") : tie\.Need-(" + W + r")(?: " + W + r")*$", first)
        if m:
            label, need = m.group(1), norm(m.group(2))
            for k in (need, re.sub(r"^overflow-", "", need)):
                if k in needs: break
            new = needs.get(k)
            mm = re.search(r"^" + re.escape(label) + r"((?: " + W + r")*) =", "\n".join(body[1:]), re.M)
            rest = "\n".join(body[1:])
            rhs, args = rest[mm.end():], [a for a in mm.group(1).split() if a != "κs"]
            unf = [l for l in body if l.startswith("unfolding")]
            if new is None:
                warn.append(f"no goal for {need}"); kept.append("-- no goal: " + need); continue
            labels[label] = new
            if rhs.strip() == "search rules":
                searched[label] = new; continue
            answers.append([comm, new, unf, args, rhs.strip("\n"), label])
            continue
        m = re.match(r"(?:pub |abbrev |unfoldable )*(" + W + r") :(.*)", text, re.S)
        if m and "tie." in text:
            name = m.group(1)
            rest = text[m.end(1):]
            mm = re.search(r"^" + re.escape(name) + r"((?: " + W + r")*) =(.*)", text, re.M | re.S)
            if mm and not re.search(r"^\s+where", text, re.M):
                params = mm.group(1).split()
                unf = [l[10:] for l in body if l.startswith("unfolding ")]
                b = flat(mm.group(2).split("\n"))
                ty = text[m.end(1) + 2: mm.start()].strip()
                res = flat([l for l in ty.split("\n") if not l.startswith("unfolding")])
                is_place = re.search(r"(?:→ |^)tie\." + W + r"(?: (?:invariant|decreases)-" + W + r")*$", res)
                abbreviation = text.startswith(("abbrev", "pub abbrev", "unfoldable"))
                if len(params) == 1 and not is_place and not abbreviation:
                    p = re.match(r"\(" + re.escape(params[0]) + r" : tie\.[^()]*\)\s*→\s*(.*)$", res) or re.match(r"tie\." + W + r"(?: (?:invariant|decreases)-" + W + r")*\s*→\s*(.*)$", res)
                    if p:
                        hoisted[name] = (p.group(1), params[0], mm.group(2).strip("\n"), unf)
                        continue
                helpers[name] = (params, b, unf, bool(is_place), res)
                continue
        kept.append("\n".join(comm + body))

    # helpers over places, written out
    def drop_before(t):
        return re.sub(r"(?:\.before)+(?![\w-])", "", t)
    table = {}
    for name, (params, b, unf, is_place, res) in helpers.items():
        b = drop_before(b)
        table[name] = (params, b)
    def steps_for(goal):
        a = at.get(goal)
        if a and a[0] in place: return chain(a[0]), True
        if a and a[0] not in place:
            q = a[0].replace("-unread", "")
            if q in place: return chain(q), True
        return everywhere, False

    def turn(t, goal):
        ch, sure = steps_for(goal)
        both = ch + everywhere
        def path(m):
            root, rest = m.group(1), m.group(2).split(".")[1:]
            if root in ("goal", "tie", "Rattle") or root[0].isupper(): return m.group(0)
            rest = [x for x in rest if x != "before"]
            if not rest: return root
            w = rest[0] = {"pre": "requires", "well-formed": "well_formed", "type-inv": "type_inv"}.get(rest[0], rest[0])
            key = norm(w)
            known = {s for s, _, _ in both}
            if key not in known and key.endswith("-lem") and key[:-4] in known: key = key[:-4]
            hit = None
            for c in (ch, everywhere):
                for s, n, arm in c:
                    if not arm: continue
                    for nf, os_, op in arm[2]:
                        if norm(os_) == key and op and rest[1:1 + len(op)] == list(op):
                            if hit is None or len(op) > hit[0]: hit = (len(op), arm[0], nf)
                if hit: break
            if not hit and len(rest) > 1 and rest[1] == "rest":
                for s, n, arm in ch:
                    if arm and s == key and any(norm(o) == key and not op and nf.endswith("-own") for nf, o, op in arm[2]):
                        nf = next(nf for nf, o, op in arm[2] if norm(o) == key and not op)
                        hit = (0, arm[0], nf); break
            if hit:
                rest = [hit[1], hit[2]] + rest[1 + hit[0]:]
            elif w not in ("args", "requires", "result", "ensures", "ranges"):
                for s, n, arm in both:
                    if s == key:
                        if norm(n) != key + "-1" or key.startswith(("shared-slice", "slice-known", "struct-known", "enum")): rest = [n] + rest[1:]
                        break
            rest = [FIELDS.get(x, x) if i else x for i, x in enumerate(rest)]
            return root + "".join("." + x for x in rest)
        t = drop_before(t)
        # a let that only names a place
        while True:
            m = re.search(r"let (" + W + r") = (c) in\s*", t)
            if not m: break
            v = m.group(1)
            t = t[:m.start()] + re.sub(r"(?<![\w.'₀-₉-])" + re.escape(v) + r"(?![\w'₀-₉-])", m.group(2), t[m.end():])
        t = re.sub(r"\((c)\)", r"\1", t)
        t = re.sub(r"(?<![\w.'₀-₉-])(" + W + r")((?:\.[\w'₀-₉-]+)+)", path, t)
        t = re.sub(r"(\))((?:\.[\w'₀-₉-]+)+)", path, t)
        t = re.sub(r"not-(?:true|false) (?:[\w.'-]+|\([^()]*\)) ([\w.'-]*\.(?:true|false))(?![\w])", r"\1", t)
        t = re.sub(r"\(([\w.'-]+\.(?:true|false))\)", r"\1", t)
        t = re.sub(r"\((c)\)", r"\1", t)
        return t

    out = []
    for comm, new, unf, args, rhs, label in answers:
        used = set()
        t = drop_before(rhs)
        order, unfs = [], []
        def need(text, seen=()):
            for h in hoisted:
                if h in seen or h in order: continue
                if re.search(r"(?<![\w.'₀-₉-])" + re.escape(h) + r"(?![\w'₀-₉-])", text):
                    need(hoisted[h][2], seen + (h,))
                    if h not in order: order.append(h); unfs.extend(hoisted[h][3])
        need(t)
        for h in list(helpers):
            if re.search(r"(?<![\w.'₀-₉-])" + re.escape(h) + r"(?![\w'₀-₉-])", t): need(helpers[h][1])
        def unapply(text):
            text = drop_before(text)
            for h in hoisted:
                while True:
                    m = re.search(r"(?<![\w.'₀-₉-])" + re.escape(h) + r"(?![\w'₀-₉-])(?= )", text)
                    if not m: break
                    a = atom(text, m.end())
                    if a is None: break
                    b, e = m.start(), a[1]
                    # a path behind the argument's bracket belongs to the argument
                    if b and text[b-1] == "(" and e < len(text) and text[e] == ")": b, e = b - 1, e + 1
                    text = text[:b] + h + "\0" + text[e:]
            return text.replace("\0", "")
        t = unapply(t)
        pre = ""
        for h in order:
            ty, p, b, _ = hoisted[h]
            b2 = unapply(re.sub(r"(?<![\w.'₀-₉-])" + re.escape(p) + r"(?![\w'₀-₉-])", "c", drop_before(b)))
            ty2 = unapply(re.sub(r"(?<![\w.'₀-₉-])" + re.escape(p) + r"(?![\w'₀-₉-])", "c", drop_before(ty)))
            pre += f"    let {h} : {ty2} =" + (("\n" + "\n".join("    " + x for x in b2.split("\n"))) if "\n" in b2 else " " + b2.strip()) + " in\n"
        if pre:
            body = t.strip("\n")
            t = "\n" + pre + (body if body.startswith(" ") and "\n" in body else "    " + body.strip())
        if unfs: unf = unf + ["unfolding " + " ".join(unfs)]
        for _ in range(8):
            hit = [h for h in table if re.search(r"(?<![\w.'₀-₉-])" + re.escape(h) + r"(?![\w'₀-₉-])", t)]
            if not hit: break
            used.update(hit)
            t = expand(t, {h: table[h] for h in hit})
        t = turn(t, new)
        t = ID.sub(lambda m: labels[m.group(1)] if m.group(1) in labels and m.group(1) not in ("returns",) and labels[m.group(1)] != m.group(1) else m.group(1), t)
        if re.search(r"(?<![\w.'₀-₉-])returns c", t): t = re.sub(r"(?<![\w.'₀-₉-])returns (?=c)", labels.get("returns", "returns") + " ", t)
        more = [u for h in used for u in helpers[h][2]]
        if more or unfs:
            ws = " ".join(unf).replace("unfolding", "").split() + " ".join(more).split()
            unf = ["unfolding " + " ".join(dict.fromkeys(ws))]
        for lab in list(searched):
            if re.search(r"(?<![\w.'₀-₉-])" + re.escape(searched[lab]) + r" c(?![\w'])", t) or re.search(r"(?<![\w.'₀-₉-])" + re.escape(lab) + r" c(?![\w'])", t):
                s = searched.pop(lab)
                out.insert(0, f"pub {s} : goal.{s}\n{s} c = search rules")
        sep = "\n" if "\n" in t and t.startswith("\n") else " "
        out.append("\n".join(comm + [f"pub {new} : goal.{new}"] + unf + [f"{new} {' '.join(args)} =" + (("\n" + t.lstrip("\n")) if "\n" in t.strip() else " " + t.strip())]))
    answers = kept + out
    uses = [u for u in uses if ".Statement.{statement}" not in u and not u.endswith(" as tie")]

    def put(name, parts, imp, top):
        if not parts: return
        body = "\n\n".join(parts)
        toks = set(re.findall(W, body))
        kept_uses = []
        for u in uses:
            m = re.match(r"use (\S+)\.\{(.*)\}$", u)
            if not m: kept_uses.append(u); continue
            k = []
            for n in [n.strip() for n in m.group(2).split(",")]:
                base = n.split(" as ")[-1]
                op = base.replace("◌", "")
                if base in toks or (op != base and (op in toks or op in body)) or (op in (">>=", ">>") and re.search(r"\bdo\b", body)): k.append(n)
            if k: kept_uses.append(f"use {m.group(1)}.{{{', '.join(k)}}}")
        open(os.path.join(fn_dir, name), "w", encoding="utf-8").write("\n".join(top + kept_uses + [imp, ""]) + "\n" + body + "\n")
    put("Invariants.antt", invs, f"use {modpath}.Given as goal", head)
    put("Answers.antt", answers, f"use {modpath}.Goals as goal", [] if invs else head)
    os.remove(os.path.join(fn_dir, "Proof.antt"))
    return warn

def main(crate_dir, names_file):
    d = json.load(open(names_file))
    crate = os.path.basename(os.path.normpath(crate_dir))
    for p in sorted(glob.glob(os.path.join(crate_dir, "proofs", "**", "Proof.antt"), recursive=True)):
        fn = os.path.relpath(os.path.dirname(p), os.path.join(crate_dir, "proofs")).replace("/", ".")
        key = f"Rattle-{crate}-proofs.{fn}.Lts"
        if key not in d:
            print("no names for", fn); continue
        w = convert(os.path.dirname(p), d[key], f"Rattle.{crate}.proofs.{fn}")
        if w: print(crate, fn, w)

main(*sys.argv[1:3])
