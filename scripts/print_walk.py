#!/usr/bin/env python3
"""Prints the proofs that go over the trees form by form, from the clauses of crates/ml_trees/specs/Events.antt.

It writes crates/tree_events/specs/Told.antt, crates/tree_events/proofs/Tells.antt, crates/value_sites/proofs/Placed.antt,
crates/value_sites/proofs/SpelledEvents.antt, crates/rename_laws/proofs/FineEvents.antt and crates/group_walk/proofs/Grouped.antt.
Run it after a change of Events.antt, Respelled.antt or WellFormed.antt, and then `rt fmt` in these crates.
"""
import os
import re

TOP = os.path.dirname(os.path.dirname(os.path.abspath(__file__)))
EVENTS = f"{TOP}/crates/ml_trees/specs/Events.antt"
TREE = f"{TOP}/crates/ml_trees/specs/Tree.antt"
# phrases of words alone: they leave a state as it is (proofs/Silent.antt)
SILENT = "type optional bang open lowers module_name constraint constraints withs texts".split()
# phrases that have no clause of their own
INLINE = ["external", "open_item"]
MOST_COLUMNS = 145
EVENT_NAMES = (
    "Event said run_of value field label operator minus module_path last_path qualifier group_begins group_ends"
    " bindings_begin part_begins part_ends alternatives_end scope_begins scope_ends brings"
).split()


def atom(tokens):
    token = tokens.pop(0)
    if token != "(":
        return token
    out = []
    while tokens[0] != ")":
        out.append(atom(tokens))
    tokens.pop(0)
    return out


def atoms(text):
    tokens, out = re.findall(r"[()]|[^\s()]+", text), []
    while tokens:
        out.append(atom(tokens))
    return out


def show(x):
    return x if isinstance(x, str) else "(" + " ".join(map(show, x)) + ")"


def steps(body):
    """The steps of a clause: ('ev', EVENT) or ('call', FUNCTION, ARGUMENTS)."""
    if body in ("k", ["k"]):
        return []
    if len(body) == 1:
        return steps(body[0])
    for i, x in enumerate(body):
        if x in ("▹", "▸"):
            event = " ".join(map(show, body[:i]))
            if x == "▸":
                event = "said " + (event if i == 1 else f"({event})")
            return [("ev", event)] + steps(body[i + 1 :])
    last = body[-1] if isinstance(body[-1], list) else "k"
    return [("call", body[0], [show(y) for y in body[1:-1]])] + steps(last)


# The event that binds a module is printed as a phrase of its own, by the cases of the module's name: without a name it
# leaves a state as it is (crates/tree_events/specs/Behind.antt).
BRINGS = [("brings_out", "(UpperName x)", [("ev", "brings (UpperName x)")]), ("brings_out", "(AnyName at)", [])]


def with_brings(parts):
    """The steps of a clause, with a call for each event that binds a module by a name that is a variable."""
    return [("call", "brings_out", [x[1].split()[1]]) if re.match(r"brings \w+$", x[1]) else x for x in parts]


def read_events():
    """The clauses (function, patterns, steps), the types of each function's arguments, and the blocks of functions."""
    text = open(EVENTS).read()
    joined = []
    for line in text.split("module _ {A", 1)[1].split("\n"):
        goes_on = joined and re.match(r"\s*\w+_out .*=", joined[-1]) and line.strip()
        if goes_on and re.match(r"\s+", line) and not re.match(r"\s*(\w+_out .*=|pub |abbrev|--)", line):
            joined[-1] += " " + line.strip()
        else:
            joined.append(line)
    clauses, types, blocks = list(BRINGS), {"brings_out": ["ModuleName"]}, []
    for line in joined:
        if re.match(r"  abbrev mutual", line):
            blocks.append([])
            continue
        m = re.match(r"(\s*)(?:abbrev )?pub (\w+_out) : (.*)$", line)
        if m:
            types[m[2]] = m[3].split(" → ")[:-2]
            if len(m[1]) == 2:
                blocks.append([])
            blocks[-1].append(m[2])
            if m[2] == "bang_out":
                blocks.append(["brings_out"])
            continue
        m = re.match(r"\s*(\w+_out) (.*?) k = (.*)$", line)
        if m:
            clauses.append((m[1], m[2], with_brings(steps(atoms(m[3])))))
    uses = [line for line in text.split("module _ {A", 1)[0].split("\n") if line.startswith("use ")]
    return clauses, types, [b for b in blocks if b], uses


CLAUSES, TYPES, BLOCKS, USES = read_events()
CONSTRUCTORS = {}
for line in open(TREE):
    m = re.match(r"\s*(?:pub )?(\w+) : (.*)$", line)
    if m:
        CONSTRUCTORS[m[1]] = [x.strip() for x in m[2].split(" → ")]


def kind(function):
    return function[:-4]


def told(function):
    return kind(function) + "_told"


def out_of(function, args):
    """The tree written out by what its events make of a state."""
    return f"behind step (brings {args})" if function == "brings_out" else f"{function} (behind step) {args}"


KINDS = [f for b in BLOCKS for f in b if kind(f) not in SILENT + INLINE]
# those that no contract cites
OF_PROOFS = ["tail_out"]


def flat(parts):
    out = []
    for x in parts:
        if x[0] == "call" and kind(x[1]) in INLINE:
            names, inner = next((p.split(), st) for f, p, st in CLAUSES if f == x[1])
            assert names == x[2], x
            out += inner
        else:
            out.append(x)
    return out


FLAT = [(f, p, flat(st)) for f, p, st in CLAUSES if f in KINDS]


def is_silent(event):
    return event.startswith(("said ", "run_of "))


def argument(text):
    return f"({text})" if " " in text else text


def told_of(parts, state, step):
    """What the steps make of a state."""
    for x in parts:
        if x[0] == "ev":
            if not is_silent(x[1]):
                state = f"({step} {state} {argument(x[1])})"
        elif kind(x[1]) not in SILENT:
            state = f"({told(x[1])} {'step ' if step == 'step' else step + ' '}{state} {' '.join(x[2])})"
    return state


def bare(text):
    return text[1:-1] if text.startswith("(") else text


def constructor(function, pattern):
    for x in atoms(pattern):
        if isinstance(x, list):
            return kind(function) + "_more" if "∷" in x else x[0]
        if x == "[]":
            return kind(function) + "_end"
        if x in CONSTRUCTORS:
            return x
    raise ValueError((function, pattern))


def rule(function, pattern):
    of = kind(function) + "_" if kind(function) in ("base", "guard") else ""
    return f"told_{of}{constructor(function, pattern)}"


def variables(function, pattern):
    """The variables of a pattern with their types."""
    out = []
    for x, type_of in zip(atoms(pattern), TYPES[function]):
        if isinstance(x, list) and "∷" in x:
            out += [(x[0], re.match(r"List (.*)$", type_of)[1]), (x[2], type_of)]
        elif isinstance(x, list):
            out += zip(x[1:], CONSTRUCTORS[x[0]][:-1])
        elif x != "[]" and x not in CONSTRUCTORS:
            out.append((x, type_of))
    return out


def words_of(body):
    code = "\n".join(line for line in body.split("\n") if not line.strip().startswith("--"))
    return set(re.findall(r"[^\s(){},;]+", code))


def use(path, names):
    """Lines of few enough columns that import names."""
    out, line = [], []
    for name in names:
        if line and len(f"use {path}.{{{', '.join([*line, name])}}}") > MOST_COLUMNS:
            out.append(f"use {path}.{{{', '.join(line)}}}")
            line = []
        line.append(name)
    return out + ([f"use {path}.{{{', '.join(line)}}}"] if line else [])


def uses_of(body):
    """The imports of Events.antt that a body needs."""
    words, out = words_of(body), []
    for line in USES:
        m = re.match(r"use (\S+)\.\{(.*)\}$", line)
        if m and not m[1].endswith("Prelude"):
            out += use(m[1], [x for x in m[2].split(", ") if x in words])
        m = re.match(r"use (\S+) as (\w+)$", line)
        if m and re.search(rf"\b{m[2]}\.", body):
            out.append(line)
    out += use("Rattle.ml_trees.specs.Events", [x for x in EVENT_NAMES if x in words])
    return out


def std_names(body, path, also=()):
    words = words_of(body)
    signs = [f"◌{x}◌" for x in "≡∙∷" if x in words] + (["◌++◌"] if "++" in words else [])
    names = ["ℕ", "List", "[]", "Bool", "true", "false", "Option", "Some", "None", "refl", "ap", "sym", *also]
    return f"use {path}.{{{', '.join(signs + [x for x in names if x in words])}}}"


def wrapped(line):
    """A line as lines of few enough columns: it breaks at blanks, and goes on four columns further in."""
    indent = " " * (len(line) - len(line.lstrip()) + 4)
    out = []
    while len(line) > MOST_COLUMNS:
        at = line.rfind(" ", len(indent) + 1, MOST_COLUMNS)
        out.append(line[:at])
        line = indent + line[at + 1 :]
    return "\n".join([*out, line])


def write(path, head, uses, body):
    with open(f"{TOP}/{path}", "w") as file:
        lines = [wrapped(line) for line in body.rstrip().split("\n")]
        file.write(f"-- {head}\n" + "\n".join([*uses, "", *lines]) + "\n")


def arguments(function):
    names = [f"x{i}" for i in range(len(TYPES[function]))]
    return names, " ".join(f"({x} : {t})" for x, t in zip(names, TYPES[function]))


def definition_of(f):
    xs = " ".join(arguments(f)[0])
    return (
        f"unfoldable pub {told(f)} : {{S : Type 0}} → (S → Event → S) → S → {' → '.join(TYPES[f])} → S\n"
        f"{told(f)} step s {xs} = {out_of(f, xs)} (λ t. t) s\n\n"
    )


def print_told():
    body = "".join(definition_of(f) for f in KINDS if f not in OF_PROOFS)
    outs = [f for b in BLOCKS for f in b if f in words_of(body)]
    uses = [std_names(body, "Rattle.std.specs.Prelude"), *uses_of(body), *use("Rattle.ml_trees.specs.Events", outs)]
    uses.append("use Rattle.tree_events.specs.Behind.{behind}")
    write("crates/tree_events/specs/Told.antt", "What the events of each kind of tree make of a state (own).", uses, body)


def equations(parts):
    """The equations from a tree before more to what it makes of the state, and then more."""
    out = []
    for x in parts:
        if x[0] == "call":
            law = "silent" if kind(x[1]) in SILENT else "goes_on"
            out.append(f"{kind(x[1])}_{law} step {' '.join(x[2])} _ _")
    return " ∙ ".join(out)


def print_tells():
    body, sets = "".join(definition_of(f) for f in OF_PROOFS), {}
    for block in BLOCKS:
        functions = [f for f in block if f in KINDS]
        if not functions:
            continue
        indent = "  " if len(functions) > 1 else ""
        if indent:
            body += "mutual\n  unfolding " + " ".join(map(told, functions)) + "\n"
        for f in functions:
            names, typed = arguments(f)
            xs, law = " ".join(names), kind(f) + "_goes_on"
            body += f"{indent}{law} : {{S : Type 0}} (step : S → Event → S) {typed} (k : S → S) (z : S)"
            body += f" → {out_of(f, xs)} k z ≡ k ({told(f)} step z {xs})\n"
            if not indent:
                body += f"unfolding {told(f)}\n"
            for g, pattern, parts in FLAT:
                if g == f:
                    chain = equations(parts)
                    body += f"{indent}{law} step {pattern} k z = {f'{chain} ∙ ap k (sym ({chain}))' if chain else 'refl'}\n"
            body += "\n"
    for f, pattern, parts in FLAT:
        name, given = rule(f, pattern), variables(f, pattern)
        sets.setdefault(kind(f), []).append(name)
        body += f"pub {name} : {{S : Type 0}} (step : S → Event → S) (z : S)" + "".join(f" ({v} : {t})" for v, t in given)
        body += f" → {told(f)} step z {pattern} ≡ {bare(told_of(parts, 'z', 'step'))}\nunfolding {told(f)}\n"
        body += f"{name} step z" + "".join(f" {v}" for v, _ in given) + f" = {equations(parts) or 'refl'}\n\n"
    patterns, rest = "names pat pats pat_field pat_fields".split(), [kind(f) for f in KINDS]
    first, last = rest.index("variable"), rest.index("mod")
    rulesets = {
        "pat_tells": patterns,
        "local_tells": ["local", "locals"],
        "expr_tells": [x for x in rest[first:last] if x not in ("local", "locals")],
        "module_tells": ["brings", *rest[last:]],
    }
    for name, kinds in rulesets.items():
        body += f"pub ruleset {name} = (\n" + "".join(f"  {x},\n" for k in kinds for x in sets[k]) + ")\n\n"
    words = words_of(body)
    outs = [f for b in BLOCKS for f in b if f in words]
    uses = [std_names(body, "Rattle.std.proofs.Common"), *uses_of(body), *use("Rattle.ml_trees.specs.Events", outs)]
    uses += use("Rattle.tree_events.specs.Told", [told(f) for f in KINDS if f not in OF_PROOFS])
    uses.append("use Rattle.rotor_base.specs.declared.token.Class.{Class}")
    uses.append("use Rattle.tree_events.specs.Behind.{behind}")
    uses += use("Rattle.tree_events.proofs.Silent", [f"{x}_silent" for x in SILENT if f"{x}_silent" in words])
    head = "What each form makes of a state: what its parts make of it, one behind another. Printed by scripts/print_walk.py."
    write("crates/tree_events/proofs/Tells.antt", head, uses, body)


RESPELLED = f"{TOP}/crates/value_sites/specs/Respelled.antt"
SPELLINGS = {type_of: name for name, type_of in re.findall(r"pub (spell_\w+) : Spelling → (.+) → \2$", open(RESPELLED).read(), re.M)}
SPELL_EVENT = """-- an event with other words in the place of its lower-case ones
abbrev pub spell_event : Spelling → Event → Event
spell_event w (said t) = said (spell_tok w t)
spell_event w (run_of ts) = run_of (spell_run w ts)
spell_event w (value binds x) = value binds (spell_value_name w x)
spell_event w (field binds x) = field binds (spell w x)
spell_event w (operator t) = operator (spell_tok w t)
spell_event w e = e

-- what each event keeps, all events of a part keep
module _ {A B : Type 0} (◌▹◌ : Event → A → A) (◌▸◌ : Event → B → B) (R : A → B → Type 0) (w : Spelling)
    (keeps : (e : Event) (a : A) (b : B) → R a b → R (spell_event w e ▹ a) (e ▸ b)) where
  infixr 35 ◌▹◌
  infixr 35 ◌▸◌
  kept : (e : Event) {a : A} {b : B} → R a b → R (spell_event w e ▹ a) (e ▸ b)
  kept e h = keeps e _ _ h

"""


def spelled(function, args):
    """The arguments of a function of Events, respelled."""
    out = []
    for x, type_of in zip(args, TYPES[function]):
        inner = type_of.removeprefix("List ")
        if type_of in SPELLINGS:
            out.append(f"({SPELLINGS[type_of]} w {x})")
        elif inner != type_of and inner in SPELLINGS:
            out.append(f"(map ({SPELLINGS[inner]} w) {x})")
        elif function == "lowers_out":
            out.append(f"(map (spell w) {x})")
        else:
            out.append(x)
    return " ".join(out)


def spelled_clause(parts):
    """What the events of a clause keep, one behind another."""
    told_so = "h"
    for x in reversed(parts):
        name, given = x[1], x[2] if x[0] == "call" else None
        if name == "brings_out":
            name, given = f"brings {given[0]}", None
        law = f"kept {argument(name)}" if given is None else f"{kind(name)}_spelled {' '.join(given)}"
        told_so = f"{law} {argument(told_so)}"
    return told_so


def in_two(left, right):
    """A line, or its two parts in two lines if it is too long."""
    indent = " " * (len(left) - len(left.lstrip()) + 4)
    return f"{left} {right}\n" if len(f"{left} {right}") <= MOST_COLUMNS else f"{left}\n{indent}{right}\n"


def print_spelled():
    body = SPELL_EVENT
    for block in BLOCKS:
        functions = [f for f in block if f != "brings_out"]
        if not functions:
            continue
        indent = "    " if len(functions) > 1 else "  "
        if len(functions) > 1:
            body += "  mutual\n"
        for f in functions:
            names, typed = arguments(f)
            law, xs = kind(f) + "_spelled", " ".join(names)
            says = f"→ R a b → R ({f} ◌▹◌ {spelled(f, names)} a) ({f} ◌▸◌ {xs} b)"
            body += in_two(f"{indent}pub {law} : {typed} {{a : A}} {{b : B}}", says)
            for g, pattern, parts in CLAUSES:
                if g == f:
                    body += in_two(f"{indent}{law} {pattern} h =", spelled_clause(parts))
            body += "\n"
    words = words_of(body)
    outs = [f for b in BLOCKS for f in b if f in words]
    signs = [x for x in "truth opening closing wrap direction".split() if x in words]
    uses = [std_names(body, "Rattle.std.proofs.Common", ["map"]), *uses_of(body), *use("Rattle.ml_trees.specs.Events", signs + outs)]
    uses += use("Rattle.value_sites.specs.Respelled", [x for x in ["Spelling", "spell", *SPELLINGS.values()] if x in words])
    head = "What holds of the events of a respelled tree and of the tree, if each event keeps it. Printed by scripts/print_walk.py."
    write("crates/value_sites/proofs/SpelledEvents.antt", head, uses, body)


WELL_FORMED = f"{TOP}/crates/ml_trees/specs/WellFormed.antt"
# what says that a part is well formed, where its name is not the part's with a `Wf` in front
WF_NAMES = {"expr": "Wf", "mod": "WfMod", "links": "AreSigns", "external": "WfExternal"}
# parts of which nothing has to be known: each of their events is a word alone, a path, or a variable
NOT_ASKED = SILENT + ["brings", "variable", "local", "locals", "open_item"]
FINE_HEAD = """-- this word is no operator, or one that may be in its place
abbrev pub is_sign : Tok → Bool
is_sign (word class.Prefix x) = true
is_sign (word class.Infix x) = true
is_sign (word class.Mark x) = bytes_eq x.text (codes ":=")
is_sign (word class.Keyword x) = nat_le 1 (keyword_level x.text)
is_sign (word c x) = false
is_sign (placed x at) = true
is_sign (fixed x) = true

mark_level : (b : Bool) (n : ℕ) → 3 ≤ n → (if b then 3 else 0) ≡ n → b ≡ true
mark_level true n low e = refl
mark_level false n low e = absurd (omega (arith, low, e))

level_sign : (t : Tok) (n : ℕ) → 3 ≤ n → op_level t ≡ n → is_sign t ≡ true
level_sign (word class.Prefix x) n low e = refl
level_sign (word class.Infix x) n low e = refl
level_sign (word class.Mark x) n low e = mark_level (bytes_eq x.text (codes ":=")) n low e
level_sign (word class.Keyword x) n low e = let more : 1 ≤ keyword_level x.text = omega (arith, low, e) in grind (arith, nat_tests, more)
level_sign (word c x) n low e = absurd (omega (arith, low, e))
level_sign (placed x at) n low e = refl
level_sign (fixed x) n low e = refl

-- each link has such a word, and a well-formed operand
abbrev AreSigns : Links → Type 0
AreSigns no_link = Unit {0}
AreSigns (more_link t e es) = (is_sign t ≡ true) × Wf e × AreSigns es

sign_seq : (e : Expr) (es : Links) (last : Bool) → WfSeq e es last → AreSigns es
sign_seq e no_link last h = tt
sign_seq e (more_link t e' es) last h = (ap is_sign h.1, h.3, sign_seq e' es last h.4)

sign_chain : (n : ℕ) (e : Expr) (es : Links) → 3 ≤ n → WfChain n e es → AreSigns es
sign_chain n e no_link low h = tt
sign_chain n e (more_link t e' es) low h = (level_sign t n low h.2, h.4, sign_chain n e' es low h.5)

-- what is known of an event of a well-formed tree
abbrev pub Fine : Event → Type 0
Fine (value binds x) = WfName x
Fine (label binds x) = has_colon x.text ≡ false
Fine (operator t) = is_sign t ≡ true
Fine _ = Unit {0}

-- what each event keeps of which this is known, all events of a well-formed part keep
module _ {A B : Type 0} (◌▹◌ : Event → A → A) (◌▸◌ : Event → B → B) (R : A → B → Type 0)
    (keeps : (e : Event) (a : A) (b : B) → Fine e → R a b → R (e ▹ a) (e ▸ b)) where
  infixr 35 ◌▹◌
  infixr 35 ◌▸◌
  kept : (e : Event) {a : A} {b : B} → Fine e → R a b → R (e ▹ a) (e ▸ b)
  kept e g h = keeps e _ _ g h

"""


def factors(text):
    """The factors of a type, split at each `×` that is in no parentheses."""
    out, depth, last = [], 0, 0
    for i, x in enumerate(text):
        depth += {"(": 1, ")": -1}.get(x, 0)
        if x == "×" and depth == 0:
            out.append(text[last:i])
            last = i + 1
    return [x.strip() for x in [*out, text[last:]]]


def read_well_formed():
    """By name: the types of what is said to be well formed, and the clauses (patterns, factors)."""
    types, clauses = {}, {}
    for line in open(WELL_FORMED):
        m = re.match(r"\s*(?:abbrev )?pub (Wf\w*) : (.*) → Type 0$", line)
        if m:
            types[m[1]] = m[2].split(" → ")
        m = re.match(r"\s*(Wf\w*) (.*) = (.*)$", line)
        if m:
            clauses.setdefault(m[1], []).append(([show(x) for x in patterns_of(m[2])], factors(m[3])))
    return types, clauses


def patterns_of(text):
    """The patterns of a clause; `x ∷ xs` stays one in its parentheses."""
    return atoms(text)


WF_TYPES, WF_CLAUSES = read_well_formed()
WF_TYPES["AreSigns"] = ["Links"]
WF_CLAUSES["AreSigns"] = [(["no_link"], ["Unit {0}"]), (["(more_link t e es)"], ["is_sign t ≡ true", "Wf e", "AreSigns es"])]


def wf_of(function):
    """What says that a part is well formed."""
    camel = "".join(x.capitalize() for x in kind(function).split("_"))
    return WF_NAMES.get(kind(function), "Wf" + camel)


def plain_words(text):
    return re.findall(r"[\w']+", text)


def wf_clause(function, pattern):
    """The clause on the same form of a part, by the names that Events has: what is before the part, and the factors."""
    tree = [show(x) for x in atoms(pattern)][-1]
    names = plain_words(tree)
    for patterns, parts in WF_CLAUSES[wf_of(function)]:
        for i, x in enumerate(patterns):
            here = plain_words(x)
            same_head = here and here[:1] == names[:1] and here[0] in CONSTRUCTORS
            if x == tree or same_head or ("∷" in x and "∷" in tree):
                renamed = dict(zip(here, names))
                changed = [re.sub(r"[\w']+", lambda m: renamed.get(m[0], m[0]), y) for y in parts]
                before = [y if y not in names else "_" for y in patterns[:i] + patterns[i + 1 :]]
                return before, changed
    assert False, (function, pattern)


def known(parts, wanted):
    """Where a factor is, and its words."""
    for i, x in enumerate(parts):
        if re.match(wanted, x.strip("()")):
            return ("g" if len(parts) == 1 else f"g.{i}"), x.strip("()").split()
    return None, None


def fine_clause(steps_of_clause, parts):
    """What the events of a clause keep, one behind another, by what is known of them."""
    told_so = "h"
    for x in reversed(steps_of_clause):
        if x[1] == "brings_out":
            x = ("ev", f"brings {x[2][0]}")
        if x[0] == "ev":
            words, at = x[1].split(), "tt"
            if words[0] == "value" and words[-1].isidentifier():
                at = known(parts, rf"WfName {words[-1]}$")[0]
            elif words[0] == "label":
                at = known(parts, rf"has_colon {words[-1]}\.text ≡ false$")[0]
            elif words[0] == "operator":
                at = "refl" if "class.Prefix" in x[1] else known(parts, r"is_sign t ≡ true$")[0]
            told_so = f"kept {argument(x[1])} {at} {argument(told_so)}"
            continue
        function, given = x[1], x[2]
        if kind(function) in NOT_ASKED:
            told_so = f"{kind(function)}_fine {' '.join(given)} {argument(told_so)}"
            continue
        tree, before = given[-1], []
        at, words = known(parts, rf"{wf_of(function)} (.* )?{re.escape(tree)}$")
        if kind(function) == "links" and at is None:
            at, words = known(parts, rf"WfSeq .* {tree} last$")
            if at:
                at = f"(sign_seq {' '.join(words[1:])} {at})"
            else:
                at, words = known(parts, rf"WfChain .* {tree}$")
                at = f"(sign_chain {' '.join(words[1:])} g.0 {at})"
        elif kind(function) == "fields" and at is None:
            at, words = known(parts, rf"WfFields .* {tree} last$")
            before = [words[1], words[3]]
        elif kind(function) == "external":
            at, words = known(parts, r"WfExternal ")
        else:
            joined = " ".join(words[1:])
            before = [show(y) for y in atoms(joined)][:-1]
        assert at, (x, parts)
        told_so = f"{kind(function)}_fine {' '.join([*before, *given])} {at} {argument(told_so)}"
    return told_so


def print_fine():
    body = FINE_HEAD
    for block in BLOCKS:
        functions = [f for f in block if f != "brings_out"]
        if not functions:
            continue
        indent = "    " if len(functions) > 1 else "  "
        if len(functions) > 1:
            body += "  mutual\n"
        for f in functions:
            names, typed = arguments(f)
            law, xs, asks = kind(f) + "_fine", " ".join(names), kind(f) not in NOT_ASKED
            premise, extra = "", ""
            if asks and kind(f) == "external":
                premise = "WfExternal x0 x1 x3 → "
            elif asks:
                before = WF_TYPES[wf_of(f)][:-1] if kind(f) != "fields" else ["Field", "Bool"]
                extra = "".join(f"(y{i} : {t}) " for i, t in enumerate(before))
                ys = [f"y{i}" for i in range(len(before))]
                said = [ys[0], names[-1], ys[1]] if kind(f) == "fields" else [*ys, names[-1]]
                premise = f"{wf_of(f)} {' '.join(said)} → "
            says = f"→ {premise}R a b → R ({f} ◌▹◌ {xs} a) ({f} ◌▸◌ {xs} b)"
            body += in_two(f"{indent}pub {law} : {extra}{typed} {{a : A}} {{b : B}}", says)
            for g, pattern, parts in CLAUSES:
                if g == f and not asks:
                    body += in_two(f"{indent}{law} {pattern} h =", fine_clause(parts, []))
                elif g == f and kind(f) == "external":
                    body += in_two(f"{indent}{law} {pattern} g h =", fine_clause(parts, ["WfName x", "is_type_run run ≡ true", "texts ≢ []"]))
                elif g == f:
                    before, is_known = wf_clause(f, pattern)
                    body += in_two(f"{indent}{law} {' '.join([*before, pattern])} g h =", fine_clause(parts, is_known))
            body += "\n"
    words = words_of(body)
    outs = [f for b in BLOCKS for f in b if f in words]
    signs = [x for x in "truth opening closing wrap direction".split() if x in words]
    uses = [
        "use Rattle.std.proofs.Common.{◌≡◌, ℕ, ◌≤◌, List, [], ◌∷◌, Bool, true, false, if◌then◌else◌, Option, Some, None, codes}",
        "use Rattle.std.proofs.Common.{bytes_eq, nat_le, refl, ap, arith}",
        "use Rattle.std.proofs.lemmas.Bool.Decides.{nat_tests}",
        *uses_of(body),
        *use("Rattle.ml_trees.specs.Events", signs + outs),
        *use("Rattle.ml_trees.specs.WellFormed", [x for x in ["keyword_level", "op_level", "is_separator", *WF_TYPES] if x in words and x != "AreSigns"]),
        "use Rattle.ml_trees.specs.Runs.{has_colon}",
    ]
    head = "What holds of the events of a well-formed tree, if each event keeps it. Printed by scripts/print_walk.py."
    write("crates/rename_laws/proofs/FineEvents.antt", head, uses, body)


# what a tree declares in the group around it, and the groups inside it
DECLARES = {
    "names": "names",
    "pat": "variables",
    "pats": "pats_variables",
    "pat_field": "field_variables",
    "pat_fields": "fields_variables",
    "variable": "for_variables",
    "binding": "binding_variables",
    "bindings": "bindings_variables",
}
PATTERN_STEPS = {"pat": "pat_steps", "pats": "pats_steps", "pat_field": "field_pat_steps", "pat_fields": "fields_pat_steps"}
NO_GROUPS = ["names", "brings", "variable", "local", "locals"]
GROUPS_OF = {"functor_params": "functor", "mod_type": "type", "signature": "maybe_type", "base": "optional", "guard": "optional"}
# trees that no group is around
OUTSIDE = (
    "mod mod_argument mod_arguments functor_param functor_params mod_type signature item items sig_item sig_items"
).split()
JOINED = ["none_joined", None, "two_joined", "three_joined", "four_joined"]
PLACES = "List Place"
LISTS = "List (List Place)"


def groups_in(function, args):
    """The groups inside a tree, or nothing."""
    k = kind(function)
    of = " ".join(args[1:] if k == "pats" else args)
    if k in NO_GROUPS:
        return None
    if k in PATTERN_STEPS:
        return f"(groups_of ({PATTERN_STEPS[k]} file {of}))"
    return f"({GROUPS_OF.get(k, k)}_groups file {of})"


def declared_by(function, args):
    return f"({DECLARES[kind(function)]} {args[-1]})"


def with_places(places, values):
    for xs in values:
        places = f"({places} ++ decls (bound file {xs}))"
    return places


def stack(frames, base):
    for start, values, position in frames:
        base = f"begun {with_places(start, values)} [] {position} ∷ {base}"
    return f"({base})" if frames else base


def listed_as(lists):
    found = "found"
    for x in lists:
        found = f"({found} ++ map decls {x})"
    return found


SITES = {"value": "(name_sites [] true {0})", "field": "(punned true {0}.at {0}.text ∷ [])", "label": "(label_site true {0} ∷ [])"}


def groups(function, pattern, parts):
    """The equations from what the steps make of a state to the groups that are listed then."""
    k = kind(function)
    base, frames, lists, out = "[]" if k in OUTSIDE else "around", [], [], []
    if k in DECLARES:
        frames.append(["places", [], "position"])
    for i, x in enumerate(parts):
        rest = parts[i + 1 :]
        if x[0] == "ev":
            event = atoms(x[1])
            head, given = event[0], [show(y) for y in event[1:]]
            if head in SITES and given[0] == "true" and frames:
                frames[-1][1].append(SITES[head].format(given[1]))
            elif head == "group_begins":
                frames.append(["[]", [], "None"])
            elif head == "group_ends":
                values = frames.pop()[1]
                assert len(values) == 1, (function, pattern)
                lists.append(f"(bound file {values[0]} ∷ [])")
            else:
                assert k == "pats" or not head.startswith(("bindings", "part_", "alternatives")), (function, pattern)
            continue
        f, args = x[1], x[2]
        if kind(f) in SILENT:
            continue
        found = listed_as(lists)
        if kind(f) in DECLARES:
            start, values, position = frames[-1]
            around = stack(frames[:-1], base)
            plain = " (λ s. refl) (λ s. refl)" if kind(f) == "pats" and args[0] != "sep" else " h h'" if kind(f) == "pats" else ""
            law = f"{kind(f)}_grouped {' '.join(args)}{plain} file {found} {with_places(start, values)} {position} {around}"
            frames[-1][1].append(declared_by(f, args))
        elif kind(f) in OUTSIDE:
            assert base == "[]" and not frames, (function, pattern)
            law = f"{kind(f)}_grouped {' '.join(args)} file {found}"
        else:
            law = f"{kind(f)}_grouped {' '.join(args)} file {found} {stack(frames, base)}"
        if groups_in(f, args):
            lists.append(groups_in(f, args))
        left = told_of(rest, "w", "hears")
        out.append(law if left == "w" else f"ap (λ w. {bare(left)}) ({law})")
    target = groups_in(function, [pattern] if len(TYPES[function]) == 1 else pattern_args(function, pattern))
    if target and len(lists) != 1:
        law = f"{JOINED[len(lists)]} found {' '.join(lists)}".strip()
        out.append(f"ap (λ z. grouping file z {stack(frames, base)}) ({law})")
    if frames:
        start, values, position = frames[-1]
        if len(values) != 1:
            law = f"{['none_declared', None, 'two_declared'][len(values)]} file places {' '.join(values)}".strip()
            found = f"(found ++ map decls {target})" if target else "found"
            out.append(f"ap (λ z. grouping file {found} (begun z [] position ∷ {base})) ({law})")
    return out


def pattern_args(function, pattern):
    return [show(x) for x in atoms(pattern)]


LISTING = """-- the groups of the parts of an or-pattern after the first
abbrev parts_of : ℕ → Pats → List Entries
parts_of file no_pat = []
parts_of file (more_pat p ps) = bound file (variables p) ∷ parts_of file ps

ties_listed : (file : ℕ) (before : List Site) (ps : Pats) → groups_of (ties file before ps) ≡ parts_of file ps
ties_listed file before no_pat = refl
ties_listed file before (more_pat p ps) = ap (λ l. bound file (variables p) ∷ l) (ties_listed file (variables p) ps)

"""
OR_PATTERNS = """  alternatives_grouped : (ps : Pats) (file : ℕ) (g : List (List Place)) (b : List Place) (l : List (List Place)) (n : Option ℕ) (o : List Begun)
      → pats_told hears (grouping file g (begun b l n ∷ o)) key.Bar ps
      ≡ grouping file (g ++ map decls (groups_of (pats_steps file ps))) (begun b (l ++ map decls (parts_of file ps)) n ∷ o)
  alternatives_grouped no_pat file g b l n o = told_no_pat hears (grouping file g (begun b l n ∷ o)) key.Bar
      ∙ ap (λ z. grouping file z (begun b l n ∷ o)) (none_joined g)
      ∙ ap (λ z. grouping file (g ++ map decls []) (begun b z n ∷ o)) (none_joined l)
  alternatives_grouped (more_pat p ps) file g b l n o = told_more_pat hears (grouping file g (begun b l n ∷ o)) key.Bar p ps
      ∙ ap (λ w. pats_told hears (hears w (part_ends key.Bar)) key.Bar ps) (pat_grouped p file g [] None (begun b l n ∷ o))
      ∙ alternatives_grouped ps file (g ++ map decls (groups_of (pat_steps file p))) b (l ++ decls (bound file (variables p)) ∷ []) n o
      ∙ ap (λ z. grouping file z (begun b ((l ++ decls (bound file (variables p)) ∷ []) ++ map decls (parts_of file ps)) n ∷ o))
      (two_joined g (groups_of (pat_steps file p)) (groups_of (pats_steps file ps)))
      ∙ ap (λ z. grouping file (g ++ map decls (groups_of (pat_steps file p) ++ groups_of (pats_steps file ps))) (begun b z n ∷ o))
      (two_joined l (bound file (variables p) ∷ []) (parts_of file ps))

"""
OR_PATTERN = """  pat_grouped (OrPat p ps) file g b n o = told_OrPat hears (grouping file g (begun b [] n ∷ o)) p ps
      ∙ ap (λ w. hears (pats_told hears w key.Bar ps) alternatives_end) (pat_grouped p file g b n o)
      ∙ ap (λ w. hears w alternatives_end) (alternatives_grouped ps file (g ++ map decls (groups_of (pat_steps file p)))
      (b ++ decls (bound file (variables p))) [] n o)
      ∙ ap (λ z. grouping file z (begun (b ++ decls (bound file (variables p))) [] n ∷ o))
      (three_joined g (groups_of (pat_steps file p)) (groups_of (pats_steps file ps)) (parts_of file ps)
      ∙ ap (λ l. g ++ map decls (groups_of (pat_steps file p) ++ (groups_of (pats_steps file ps) ++ l))) (sym (ties_listed file (variables p) ps)))
"""
BINDINGS = """ hears (grouping file g {o}) at rec b bs{e}
      ∙ ap (λ w. {before}hears (bindings_told hears w bs) group_ends{after}) (binding_grouped b file (g ++ [] ∷ []) [] (Some (length g)) {o})
      ∙ ap (λ w. {before}hears w group_ends{after}) (bindings_grouped bs file ((g ++ [] ∷ []) ++ map decls (binding_groups file b))
      (decls (bound file (binding_variables b))) (Some (length g)) {o})
      ∙ ap (λ w. {before}grouping file w {o}{after}) (let_listed file g b bs)
"""
LET = """  expr_grouped (Let at rec b bs e) file g o = told_Let""" + BINDINGS.format(
    o="o", e=" e", before="expr_told hears (", after=") e"
) + """      ∙ expr_grouped e file (g ++ map decls (let_bound file b bs ∷ (binding_groups file b ++ bindings_groups file bs))) o
      ∙ ap (λ z. grouping file z o) (two_joined g (let_bound file b bs ∷ (binding_groups file b ++ bindings_groups file bs)) (expr_groups file e)
      ∙ ap (λ l. g ++ map decls (let_bound file b bs ∷ l)) (append_assoc (binding_groups file b) (bindings_groups file bs) (expr_groups file e)))
"""
VALUE_ITEM = "  item_grouped (ValueItem at rec b bs) file g = told_ValueItem" + BINDINGS.format(o="[]", e="", before="", after="")
BY_HAND = {"OrPat": OR_PATTERN, "Let": LET, "ValueItem": VALUE_ITEM}
FILES_GROUPED = """-- the groups of a file, behind those that were found before
pub file_grouped : (t : FileTree) (g : List (List Place))
    → (file_told hears (grouping (file_number t) g []) t).found ≡ g ++ map decls (file_groups t)
file_grouped (Body file is) g = ap (λ w. w.found) (told_Body hears (grouping file g []) file is ∙ items_grouped is file g)
file_grouped (Face file is) g = ap (λ w. w.found) (told_Face hears (grouping file g []) file is ∙ sig_items_grouped is file g)
"""


def print_groups():
    body, rules = LISTING, {"told_Body", "told_Face"}
    functions = [f for f in KINDS if kind(f) != "file"]
    for block in BLOCKS:
        here = [f for f in block if f in functions]
        if not here:
            continue
        indent = "  " if len(here) > 1 else ""
        if indent:
            body += "mutual\n"
        for f in here:
            k, (names, typed) = kind(f), arguments(f)
            xs, target = " ".join(names), groups_in(f, names)
            found = f"(found ++ map decls {target})" if target else "found"
            plain = " (h : (s : Grouping) → hears s (part_begins x0) ≡ s) (h' : (s : Grouping) → hears s (part_ends x0) ≡ s)" if k == "pats" else ""
            if k in DECLARES:
                given, state = f" (places : {PLACES}) (position : Option ℕ) (around : List Begun)", "grouping file found (begun places [] position ∷ around)"
                left = f"grouping file {found} (begun (places ++ decls (bound file {declared_by(f, names)})) [] position ∷ around)"
                last = " places position around"
            elif k in OUTSIDE:
                given, state, left, last = "", "grouping file found []", f"grouping file {found} []", ""
            else:
                given, state, left, last = " (around : List Begun)", "grouping file found around", f"grouping file {found} around", " around"
            body += f"{indent}{k}_grouped : {typed}{plain} (file : ℕ) (found : {LISTS}){given}\n"
            body += f"{indent}    → {told(f)} hears ({state}) {xs} ≡ {left}\n"
            for f2, pattern, parts in FLAT:
                if f2 != f:
                    continue
                rules.add(rule(f, pattern))
                if constructor(f, pattern) in BY_HAND:
                    body += BY_HAND[constructor(f, pattern)]
                    continue
                first = f"{rule(f, pattern)} hears ({state})" + "".join(f" {v}" for v, _ in variables(f, pattern))
                body += f"{indent}{k}_grouped {pattern}{' h h' + chr(39) if k == 'pats' else ''} file found{last} = "
                chain = groups(f, pattern, parts)
                if k == "pats" and "more_pat" in pattern:
                    chain = [
                        "ap (λ w. pats_told hears (hears (pat_told hears w p) (part_ends sep)) sep ps) (h (grouping file found (begun places [] position ∷ around)))",
                        chain[0],
                        "ap (λ w. pats_told hears w sep ps) (h' (grouping file (found ++ map decls (groups_of (pat_steps file p)))"
                        " (begun (places ++ decls (bound file (variables p))) [] position ∷ around)))",
                        *chain[1:],
                    ]
                body += f"\n{indent}    ∙ ".join([first, *chain]) + "\n"
            body += "\n"
            if k == "pats":
                body += OR_PATTERNS
    body += FILES_GROUPED
    words = words_of(body)
    uses = [std_names(body, "Rattle.std.proofs.Common", ["length", "map", "append_assoc"]), *uses_of(body)]
    uses.append("use Rattle.rotor_base.specs.declared.place.Place.{Place}")
    uses += use("Rattle.value_sites.specs.Places", [x for x in ["Site", "punned", "name_sites", "label_site"] if x in words])
    uses.append("use Rattle.shape_core.specs.Shape.{Entries}")
    uses.append("use Rattle.binding_model.specs.Facts.{decls}")
    uses.append("use Rattle.binding_model.specs.Scopes.{bound, let_bound}")
    uses.append("use Rattle.binding_model.specs.Steps.{groups_of}")
    uses += use("Rattle.binding_model.specs.Variables", sorted(set(DECLARES.values())))
    uses.append("use Rattle.binding_model.specs.Walk.{ties, pat_steps, pats_steps, field_pat_steps, fields_pat_steps, file_number}")
    uses += use("Rattle.tree_events.specs.Told", [told(f) for f in KINDS if told(f) in words and f not in OF_PROOFS])
    uses += use("Rattle.tree_events.proofs.Tells", [*(told(f) for f in OF_PROOFS if told(f) in words), *sorted(rules)])
    named = {groups_in(f, ["x"])[1:].split()[0] for f in functions if groups_in(f, ["x"]) and kind(f) not in PATTERN_STEPS} | {"file_groups"}
    uses += use("Rattle.group_walk.specs.Groups", sorted(named))
    uses.append("use Rattle.group_walk.specs.declared.groups.Begun.{Begun}")
    uses.append("use Rattle.group_walk.specs.Grouping.{Grouping, begun, grouping, hears}")
    laws = ["none_joined", "two_joined", "three_joined", "four_joined", "none_declared", "two_declared", "let_listed"]
    uses += use("Rattle.group_walk.proofs.Listed", [x for x in laws if x in words])
    head = "The groups of trees are those that their events make. Printed by scripts/print_walk.py."
    write("crates/group_walk/proofs/Grouped.antt", head, uses, body)


NO_PLACES = ["brings", "local", "locals"]


def places(function):
    k = kind(function)
    return {"base": "maybe", "guard": "maybe"}.get(k, k) + "_sites"


def placed(parts):
    """The equations from what the steps make of the places that were found to the places of a tree."""
    found, out = "found", []
    for i, x in enumerate(parts):
        rest = parts[i + 1 :]
        if x[0] == "ev":
            if not is_silent(x[1]):
                found = f"(adds_site {found} {argument(x[1])})"
            continue
        if kind(x[1]) in SILENT:
            continue
        law, left = f"{kind(x[1])}_placed {' '.join(x[2])} {found}", told_of(rest, "w", "adds_site")
        out.append(law if left == "w" else f"ap (λ w. {bare(left)}) ({law})")
        if kind(x[1]) not in NO_PLACES:
            found = f"({places(x[1])} {found} {x[2][-1]})"
    return out


FILES_PLACED = """-- the places of a file, as its events make them
pub file_told_placed : (t : FileTree) → file_told adds_site [] t ≡ sites t
unfolding file_told
file_told_placed t = refl

-- and form by form
pub file_placed : (t : FileTree) → sites t ≡ sites_by_form t
file_placed (Body file is) = sym (file_told_placed (Body file is)) ∙ told_Body adds_site [] file is ∙ items_placed is []
file_placed (Face file is) = sym (file_told_placed (Face file is)) ∙ told_Face adds_site [] file is ∙ sig_items_placed is []

-- the same of a body, and of an interface
pub body_placed : (file : ℕ) (is : Items) → sites (Body file is) ≡ items_sites [] is
body_placed file is = file_placed (Body file is)

pub face_placed : (file : ℕ) (is : SigItems) → sites (Face file is) ≡ sig_items_sites [] is
face_placed file is = file_placed (Face file is)
"""


def print_places():
    body, rules = "", {"told_Body", "told_Face"}
    functions = [f for f in KINDS if kind(f) != "file"]
    for block in BLOCKS:
        here = [f for f in block if f in functions]
        if not here:
            continue
        indent = "  " if len(here) > 1 else ""
        if indent:
            body += "mutual\n"
        for f in here:
            names, typed = arguments(f)
            target = "found" if kind(f) in NO_PLACES else f"{places(f)} found {names[-1]}"
            body += f"{indent}{kind(f)}_placed : {typed} (found : List Site) → {told(f)} adds_site found {' '.join(names)} ≡ {target}\n"
            for g, pattern, parts in FLAT:
                if g == f:
                    rules.add(rule(f, pattern))
                    first = f"{rule(f, pattern)} adds_site found" + "".join(f" {v}" for v, _ in variables(f, pattern))
                    body += f"{indent}{kind(f)}_placed {pattern} found = " + f"\n{indent}    ∙ ".join([first, *placed(parts)]) + "\n"
            body += "\n"
    body += FILES_PLACED
    words = words_of(body)
    uses = [std_names(body, "Rattle.std.proofs.Common"), *uses_of(body)]
    uses += use("Rattle.tree_events.specs.Told", [told(f) for f in KINDS if told(f) in words and f not in OF_PROOFS])
    uses += use("Rattle.tree_events.proofs.Tells", [*(told(f) for f in OF_PROOFS if told(f) in words), *sorted(rules)])
    uses += use("Rattle.value_sites.specs.Places", ["Site", "adds_site", "sites", "variable_sites"])
    by_form = {places(f) for f in functions if places(f) in words} - {"variable_sites"}
    uses += use("Rattle.value_sites.proofs.SitesByForm", ["sites_by_form", *sorted(by_form)])
    head = "The places of trees are those that their events add. Printed by scripts/print_walk.py."
    write("crates/value_sites/proofs/Placed.antt", head, uses, body)


if __name__ == "__main__":
    print_told()
    print_tells()
    print_places()
    print_spelled()
    print_fine()
    print_groups()
