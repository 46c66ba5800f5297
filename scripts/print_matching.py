#!/usr/bin/env python3
"""Prints crates/matched_lets/proofs/Leaves.antt: the words of a tree take no `in` from behind it.

A lemma for each part of patterns or expressions, and a clause for each clause of Events that lists its events: the `in`
that are open behind the part are open before its words too. What a part has to be, it has by the clause of its form in
WellFormed.

    scripts/print_matching.py > crates/matched_lets/proofs/Leaves.antt
"""
import re
from pathlib import Path

TREES = Path(__file__).resolve().parent.parent / "crates" / "ml_trees"
SYNTAX = TREES / "specs"
PROOFS = TREES / "proofs"

# the functions that write out parts: the type of the part, the parameters before it, and what it has to be
PARTS = {
    "pat_then": ("Pat", [], "WfPat"),
    "pats_then": ("Pats", ["sep : Fixed", "n : ℕ"], "WfPats"),
    "pat_field_then": ("PatField", [], "WfPatField"),
    "pat_fields_then": ("PatFields", [], "WfPatFields"),
    "expr_then": ("Expr", [], "Wf"),
    "base_then": ("MaybeExpr", [], "WfBase"),
    "guard_then": ("MaybeExpr", [], "WfGuard"),
    "tail_then": ("Tail", ["a : Expr"], "WfTail"),
    "binding_then": ("Binding", [], "WfBinding"),
    "bindings_then": ("Bindings", [], "WfBindings"),
    "case_then": ("Case", [], "WfCase"),
    "cases_then": ("Cases", ["c : Case"], "WfCases"),
    "argument_then": ("Argument", [], "WfArgument"),
    "arguments_then": ("Arguments", [], "WfArguments"),
    "param_then": ("Param", [], "WfParam"),
    "params_then": ("Params", [], "WfParams"),
    "part_then": ("Part", [], "WfPart"),
    "parts_then": ("Parts", [], "WfParts"),
    "field_then": ("Field", [], "WfField"),
    "fields_then": ("Fields", ["f : Field", "last : Bool"], "WfFields"),
}
PATTERNS = ["pat_then", "pats_then", "pat_field_then", "pat_fields_then"]
# small parts that have a lemma in SmallParts.antt, and what each has to be
SMALL = {
    "path_then": None, "qualified_then": None, "name_then": "WfName", "names_then": "WfNames", "type_then": "WfType",
    "optional_then": None, "bang_then": None, "open_then": None, "variable_then": None, "local_then": None,
    "lowers_then": None,
}
# fixed words by a variable whose lemma is in SmallParts.antt
PLACED = {"opening": "opening_leaves", "truth": "truth_leaves", "wrap": "wrap_leaves"}


def clauses(text):
    """The clauses of a file: the name of the function, its patterns, and its right side."""
    found = []
    lines = text.split("\n")
    at = 0
    while at < len(lines):
        line = lines[at]
        at += 1
        if not line.strip() or line.strip().startswith("--") or line.startswith("use "):
            continue
        indent = len(line) - len(line.lstrip())
        while at < len(lines) and lines[at].strip() and len(lines[at]) - len(lines[at].lstrip()) > indent + 3:
            line += " " + lines[at].strip()
            at += 1
        match = re.match(r"^(\w+) (.*?) = (.*)$", line.strip())
        if match and ":" not in match.group(2):
            found.append((match.group(1), parse("of " + match.group(2))[1][1:], match.group(3)))
    return found


# what is between a head and more: `▸` is a word that is only a word
SIGNS = {"∷": "cons", "++": "append", "▸": "cons", "▹": "event"}
# the words of an event that is not a list of words itself, and then more (`add_words` of Words)
WORDS_OF = {
    "value": lambda given, tail: ("call", ["name_then", given[1], tail]),
    "field": lambda given, tail: ("cons", ("call", ["word", "class.Lower", given[1]]), tail),
    "label": lambda given, tail: ("cons", ("call", ["word", "class.Label", given[1]]), tail),
    "operator": lambda given, tail: ("cons", given[0], tail),
    "minus": lambda given, tail: ("cons", ("call", ["word", "class.Infix", given[0]]), tail),
    "module_path": lambda given, tail: ("call", ["path_then", given[0], tail]),
    "last_path": lambda given, tail: ("call", ["path_then", given[0], tail]),
    "qualifier": lambda given, tail: ("call", ["qualified_then", given[0], tail]),
    "run_of": lambda given, tail: ("append", given[0], tail),
}


def words_then(tree):
    """A right side of Events as the words of its events: for each function its instance, whose name ends in `_then`."""
    if isinstance(tree, str):
        return tree.replace("_out", "_then")
    if tree[0] == "call":
        return ("call", [words_then(part) for part in tree[1]])
    kind, head, tail = tree[0], tree[1], words_then(tree[2])
    if kind == "cons":
        return (kind, head, tail)
    name, given = words_of(head)[0], words_of(head)[1:]
    return WORDS_OF[name](given, tail) if name in WORDS_OF else tail


def parse(text):
    """A right side: ('cons', head, tail), ('append', run, tail), ('event', event, tail), ('call', parts) or a name."""
    tokens = re.findall(r"[()]|∷|\+\+|▸|▹|[^\s()]+", text)
    at = 0

    def atom():
        nonlocal at
        token = tokens[at]
        at += 1
        if token == "(":
            inner = whole()
            at += 1
            return inner
        return token

    def whole():
        nonlocal at
        parts = []
        while at < len(tokens) and tokens[at] not in (")", *SIGNS):
            parts.append(atom())
        head = parts[0] if len(parts) == 1 else ("call", parts)
        if at < len(tokens) and tokens[at] in SIGNS:
            kind = SIGNS[tokens[at]]
            at += 1
            return (kind, head, whole())
        return head

    return whole()


def shown(tree, inner=False):
    if isinstance(tree, str):
        return tree
    if tree[0] == "call":
        text = " ".join(shown(part, True) for part in tree[1])
    else:
        sign = "∷" if tree[0] == "cons" else "++"
        text = f"{shown(tree[1], tree[0] == 'append')} {sign} {shown(tree[2], tree[0] == 'append' or tree[2][0] == 'append')}"
    return f"({text})" if inner else text


def renamed(tree, names):
    if isinstance(tree, str):
        return names.get(tree, tree)
    if tree[0] == "call":
        return ("call", [renamed(part, names) for part in tree[1]])
    return (tree[0], renamed(tree[1], names), renamed(tree[2], names))


def split_product(text):
    """The factors of a product."""
    parts, depth, last = [], 0, 0
    for at, char in enumerate(text):
        depth += (char == "(") - (char == ")")
        if depth == 0 and char == "×":
            parts.append(text[last:at].strip())
            last = at + 1
    parts.append(text[last:].strip())
    return parts


def factor(whole, index):
    """Where a factor is in the product `w`."""
    if len(whole) == 1:
        return "w"
    return f"w.{index}"


def words_of(tree):
    return [tree] if isinstance(tree, str) else tree[1]


def find(factors, predicates, part):
    """The factor that says what a part has to be: where it is, and the arguments of its predicate."""
    for index, text in enumerate(factors):
        tree = parse(text.removeprefix("(").removesuffix(")") if text.startswith("(") and "≡" not in text else text)
        names = words_of(tree)
        if names[0] in predicates and part in names[1:]:
            return factor(factors, index), names[0], [shown(name, True) for name in names[1:]]
    raise SystemExit(f"no {predicates} of {part} in {factors}")


def run_factor(factors, part):
    for index, text in enumerate(factors):
        if text.strip("()").startswith(f"is_type_run {part} ≡"):
            return factor(factors, index)
    raise SystemExit(f"no run {part} in {factors}")


def facts(tree, factors):
    """What is known of each part of a right side, from the left."""
    if isinstance(tree, str):
        return []
    if tree[0] == "append":
        return [f"run_leaves {tree[1]} {shown(tree[2], True)} {run_factor(factors, tree[1])}"] + facts(tree[2], factors)
    if tree[0] == "cons":
        head, rest = tree[1], facts(tree[2], factors)
        behind = f"(open_ins {shown(tree[2], True)})"
        parts = words_of(head)
        if parts[0] == "placed" and not isinstance(parts[1], str):
            return [f"{PLACED[parts[1][1][0]]} {parts[1][1][1]} {parts[2]} {behind}"] + rest
        if parts[0] == "fixed" and not (isinstance(parts[1], str) and parts[1].startswith("key.")):
            if isinstance(parts[1], str):
                return [f"fixed_leaves {parts[1]} {behind} plain"] + rest
            return [f"{parts[1][1][0]}_leaves {parts[1][1][1]} {behind}"] + rest
        return rest
    name, args, tail = tree[1][0], tree[1][1:-1], tree[1][-1]
    rest = facts(tail, factors)
    behind = shown(tail, True)
    lemma = name.replace("_then", "_leaves")
    if name in SMALL:
        told = "" if SMALL[name] is None else " " + find(factors, [SMALL[name]], args[-1])[0]
        if name == "optional_then":
            told = " refl"
        return [f"{lemma} {' '.join(shown(arg, True) for arg in args)} {behind}{told}"] + rest
    if name == "links_then":
        where, predicate, told = find(factors, ["WfSeq", "WfChain"], args[0])
        if predicate == "WfSeq":
            return [f"steps_leaves {' '.join(told)} {behind} {where}"] + rest
        return [f"chain_leaves {' '.join(told)} {behind} (omega (arith, w.0)) {where}"] + rest
    where, predicate, told = find(factors, [PARTS[name][2]], args[-1])
    before = [shown(arg, True) for arg in args[:-1]]
    plain = "" if name != "pats_then" else " plain" if before == ["sep"] else " refl"
    return [f"{lemma} {' '.join(before + told)} {behind} {where}{plain}"] + rest


def clause_text(left, found):
    """A clause, in lines of at most 150 columns."""
    if not found:
        return f"  {left} = omega arith"
    line = f"  {left} = omega (arith, {', '.join(found)})"
    if len(line) < 150:
        return line
    return "\n".join([f"  {left} =", "      omega (", "        arith,"] + [f"        {fact}," for fact in found] + ["      )"])


def lemma_text(name, written, well):
    kind, before, predicate = PARTS[name]
    lemma = name.replace("_then", "_leaves")
    part = "x"
    told = [parameter.split(" : ")[0] for parameter in before]
    own = [t for t in told if t != "sep"]
    # the part is the first parameter of its predicate, or behind those of PARTS but for `last`
    order = [t for t in own if t != "last"] + [part] + [t for t in own if t == "last"]
    types = dict(parameter.split(" : ") for parameter in before)
    types[part] = kind
    signature = "".join(f" ({t} : {types[t]})" for t in (["sep"] if "sep" in told else []) + order)
    plain = " → is_apart (fixed sep) ≡ false" if "sep" in told else ""
    lines = [f"  pub {lemma} :{signature} (k : List Tok) → {predicate} {' '.join(order)}{plain} → open_ins k ≤ open_ins ({name}"
             f" {'sep ' if 'sep' in told else ''}{part} k)"]
    for patterns, right in written[name]:
        pattern = patterns[-2]
        constructor = words_of(pattern)[0]
        for well_patterns, well_right in well[predicate]:
            at = next((i for i, p in enumerate(well_patterns) if words_of(p)[0] == constructor), None)
            if at is None:
                continue
            names = dict(zip(words_of(pattern)[1:], words_of(well_patterns[at])[1:]))
            tree = renamed(right, names)
            left = f"{lemma} {'sep ' if 'sep' in told else ''}{' '.join(shown(p, True) for p in well_patterns)} k w{' plain' if plain else ''}"
            lines.append(clause_text(left, facts(tree, split_product(well_right))))
            break
        else:
            raise SystemExit(f"no {predicate} of {constructor}")
    return "\n".join(lines)


LINKS = """  pub steps_leaves : (e : Expr) (x : Links) (last : Bool) (k : List Tok) → WfSeq e x last → open_ins k ≤ open_ins (links_then x k)
  steps_leaves e no_link last k w = omega arith
  steps_leaves e (more_link t e' es) last k w =
      omega (
        arith,
        semicolon_leaves t (open_ins (expr_then e' (links_then es k))) w.1,
        expr_leaves e' (links_then es k) w.3,
        steps_leaves e' es last k w.4,
      )

  pub chain_leaves : (n : ℕ) (e : Expr) (x : Links) (k : List Tok) → 1 ≤ n → WfChain n e x → open_ins k ≤ open_ins (links_then x k)
  chain_leaves n e no_link k some w = omega arith
  chain_leaves n e (more_link t e' es) k some w =
      omega (
        arith,
        operator_leaves n t (open_ins (expr_then e' (links_then es k))) some w.2,
        expr_leaves e' (links_then es k) w.4,
        chain_leaves n e' es k some w.5,
      )"""


def imports(module, names):
    """Lines that import names, of at most 150 columns."""
    lines, line = [], []
    for name in names:
        if len(f"use {module}.{{{', '.join(line + [name])}}}") > 150:
            lines.append(f"use {module}.{{{', '.join(line)}}}")
            line = []
        line.append(name)
    return "\n".join(lines + [f"use {module}.{{{', '.join(line)}}}"])


def main():
    written, well = {}, {}
    for name, patterns, right in clauses((SYNTAX / "Events.antt").read_text()):
        written.setdefault(name.replace("_out", "_then"), []).append((patterns, words_then(parse(right))))
    for name, patterns, right in clauses((SYNTAX / "WellFormed.antt").read_text()):
        well.setdefault(name, []).append((patterns, right))
    body = "mutual\n" + "\n\n".join(lemma_text(name, written, well) for name in PATTERNS)
    body += "\n\nmutual\n" + "\n\n".join(
        [lemma_text("expr_then", written, well), LINKS]
        + [lemma_text(name, written, well) for name in PARTS if name not in PATTERNS + ["expr_then"]])

    def used(*files):
        text = "\n".join(file.read_text() for file in files)
        names = re.findall(r"(?:^abbrev pub|^  pub|^unfoldable pub) (\w+) :", text, re.M)
        return [name for name in dict.fromkeys(names) if re.search(rf"(?<![\w.]){name}(?![\w'])", body)]

    trees = re.findall(r"^ *(?:pub data )?(\w+) :", (SYNTAX / "Tree.antt").read_text(), re.M)
    trees = [name for name in dict.fromkeys(trees) if re.search(rf"(?<![\w.]){name}(?![\w'])", body)]
    small = sorted({name for name in re.findall(r"(\w+_leaves)", body)}
                   - {name.replace("_then", "_leaves") for name in PARTS} - {"steps_leaves", "chain_leaves"})
    head = "\n".join([
        "-- The words of a tree take no `in` from behind it. Printed by scripts/print_matching.py from the clauses of Events.",
        "use Rattle.std.proofs.Common.{◌≡◌, ℕ, ◌≤◌, List, ◌∷◌, ◌++◌, Bool, false, refl, arith}",
        "use Rattle.rotor_base.specs.declared.token.Class.TheVariants as class",
        "use Rattle.ml_trees.specs.declared.fixed.Fixed.{Fixed}",
        "use Rattle.ml_trees.specs.declared.fixed.Fixed.TheVariants as key",
        "use Rattle.ml_trees.specs.Tok.{Tok, fixed, placed, word}",
        imports("Rattle.ml_trees.proofs.Words", used(SYNTAX / "Events.antt", SYNTAX / "Words.antt", PROOFS / "Words.antt")),
        imports("Rattle.ml_trees.specs.WellFormed", used(SYNTAX / "WellFormed.antt")),
        imports("Rattle.ml_trees.specs.Tree", trees),
        "use Rattle.token_reading.specs.Matching.{is_apart, open_ins}",
        imports("Rattle.matched_lets.proofs.SmallParts", small),
    ])
    print(head + "\n\n" + body)


main()
