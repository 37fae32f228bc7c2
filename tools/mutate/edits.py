"""The single edits of a crate's code: each keeps the shape of the text, and most keep the types.

An edit replaces one stretch of one file. Edits are grouped by kind and by site, so that a site with many replacements is drawn no more often
than one with few."""
import itertools
import math
import re
import struct
from dataclasses import dataclass

import typed

OPERATORS = {
    "arithmetic": {"+": "-", "-": "+", "*": "/", "/": "*", "%": "/", "<<": ">>", ">>": "<<", "+=": "-=", "-=": "+=", "*=": "/=", "/=": "*="},
    "logic": {"&&": "||", "||": "&&", "&": "|", "|": "&"},
}
COMPARISONS = {"<": ("<=", ">"), "<=": ("<", ">="), ">": (">=", "<"), ">=": (">", "<="), "==": ("!=",), "!=": ("==",)}
SWAPPED_OPERANDS = ("-", "/", "%", "<", "<=", ">", ">=")
# how often a kind is drawn, where it is not once: most swaps of statements compute the same
WEIGHTS = {"operand": 2.0, "field": 2.0, "swap": 2.0, "statements": 0.5}
ATOMS = ("number", "bool", "path", "field", "index", "call", "method", "paren")


@dataclass(frozen=True)
class Edit:
    kind: str
    path: str
    start: int
    end: int
    new: str
    where: str
    const: str = ""
    note: str = ""

    @property
    def change(self):
        """what becomes of the text: two kinds of edit may make the same change"""
        return self.path, self.start, self.end, self.new


class Sites:
    """the edits of one function or one constant: (kind, site) -> edits"""

    def __init__(self, names, file, item):
        self.file, self.item, self.found = file, item, {}
        self.names, self.consts = names, names.visible_consts(file)
        typed.Typer(names, file).item(item)
        self.walk(item.value if item.kind == "const" else item.body, "value")

    def text(self, node):
        return self.file.text[node.start : node.end]

    def add(self, kind, start, end, new, note=""):
        """one edit, unless it changes nothing"""
        if self.file.text[start:end] != new:
            where = f"{self.item.kind} {self.item.name}"
            const = self.item.name if self.item.kind == "const" else ""
            edit = Edit(kind, self.file.path, start, end, new, where, const, note)
            self.found.setdefault((kind, start, end), []).append(edit)

    def put(self, kind, node, new):
        """`new` for a value; where a struct's field stands alone, as in `Pair { a, b }`, its name is written out"""
        label = getattr(node, "label", None)
        if new != self.text(node):
            self.add(kind, node.start, node.end, f"{label}: {new}" if label else new)

    # ---- the walk: `role` says how the parent uses the value

    def walk(self, node, role):
        visit = getattr(self, "visit_" + node.kind, None)
        if visit:
            visit(node, role)
        if role == "value":
            self.values(node)
        for part, one in self.parts(node):
            self.walk(one, part)

    def parts(self, node):
        """the parts of a node that may be edited, each with its role"""
        roles = {("call", "callee"): None, ("repeat", "length"): None, ("assign", "target"): "place", ("cast", "to"): None}
        roles |= {(k, "base"): "place" for k in ("field", "index", "method")}
        if node.kind == "unary" and node.op in ("&", "&mut", "*"):
            roles["unary", "value"] = "place"
        for name, part in node.parts.items():
            role = roles.get((node.kind, name), "value")
            if role and name != "pattern":
                yield from ((role, one) for one in (part if isinstance(part, list) else [part]) if hasattr(one, "parts"))

    # ---- operands

    def values(self, node):
        if node.kind in ("field", "index") or node.kind == "path" and node.of in ("local", "const"):
            self.operands(node)
        if node.kind in ATOMS and node.kind != "paren":
            self.negated(node)

    def operands(self, node):
        if node.type is None or node.type.startswith("&"):
            return
        family = self.text(node.base) if node.kind == "field" else None
        for name, base in self.candidates(node):
            if base is None or base != family:
                self.put("operand", node, name)

    def candidates(self, node):
        """the locals, their fields and the constants of a value's type, each with the base of which it is a field"""
        for name, t in node.scope.items():
            if t == node.type:
                yield name, None
            fields = self.names.structs.get(typed.behind(t), {})
            yield from ((f"{name}.{f}", name) for f, inner in fields.items() if inner == node.type)
        yield from ((name, None) for name, t in self.consts.items() if t == node.type and name != self.item.name)

    def negated(self, node):
        sign = "!" if node.type == "bool" else "-" if node.type in (*typed.FLOATS, *typed.SIGNED) else None
        if sign and node.kind != "bool":
            self.put("negation", node, sign + self.text(node))

    def visit_unary(self, node, role):
        if node.op in ("-", "!"):
            self.add("negation", node.start, node.end, self.text(node.value))

    def visit_if(self, node, role):
        if node.test.kind == "binary" and not node.pattern:
            self.add("negation", node.test.start, node.test.end, f"!({self.text(node.test)})")

    def visit_while(self, node, role):
        self.visit_if(node, role)

    # ---- operators and constants

    def visit_binary(self, node, role):
        self.operator(node)
        for new in COMPARISONS.get(node.op, ()):
            self.add("comparison", node.place, node.place + len(node.op), new)
        if node.op in SWAPPED_OPERANDS and node.left.kind in ATOMS and node.right.kind in ATOMS:
            self.swap("swap", node.left, node.right)

    def visit_assign(self, node, role):
        self.operator(node)

    def operator(self, node):
        for kind, changes in OPERATORS.items():
            if node.op in changes:
                self.add(kind, node.place, node.place + len(node.op), changes[node.op])

    def visit_bool(self, node, role):
        self.put("boolean", node, "false" if node.text == "true" else "true")

    def visit_number(self, node, role):
        near = next_floats(node.text, node.type) if node.type in typed.FLOATS else []
        near = next_wholes(node.text) if node.type in typed.WHOLE else near
        for new in near:
            self.put("constant", node, new)

    def visit_path(self, node, role):
        if node.of == "variant" and role == "value":
            enum = self.names.variants[node.type]
            for other in (v for v, held in enum.items() if not held):
                self.put("constant", node, "::".join([*node.words[:-1], other]))

    # ---- fields, arguments, statements

    def visit_field(self, node, role):
        fields = self.names.structs.get(typed.behind(node.base.type), {})
        for other in (f for f, t in fields.items() if t == node.type and node.type and f != node.name):
            self.add("field", node.place, node.place + len(node.name), other)

    def visit_call(self, node, role):
        for left, right in itertools.combinations(node.args, 2):
            self.swap("swap", left, right)

    def visit_record(self, node, role):
        for left, right in itertools.combinations([f.value for f in node.fields], 2):
            self.swap("swap", left, right)

    def swap(self, kind, left, right):
        """two values of one type, each in the other's place"""
        if left.type is None or left.type != right.type or self.text(left) == self.text(right):
            return
        between = self.file.text[left.end : right.start]
        first, second = (f"{n.label}: " if hasattr(n, "label") else "" for n in (left, right))
        self.add(kind, left.start, right.end, first + self.text(right) + between + second + self.text(left))

    def visit_block(self, node, role):
        for first, second in zip(node.steps, node.steps[1:]):
            self.reorder(first, second)

    def reorder(self, first, second):
        a, b = Uses(first), Uses(second)
        if a.stays or b.stays or (a.calls and b.calls) or a.declares & {p[0] for p in b.reads | b.writes}:
            return
        note = "the two statements are independent, so this computes the same" if a.independent(b) else ""
        between = self.file.text[first.end : second.start]
        self.add("statements", first.start, second.end, self.text(second) + between + self.text(first), note)


class Uses:
    """what a statement reads and writes (a local, or a field of one, as a tuple of names), declares, and calls"""

    def __init__(self, step):
        self.reads, self.writes, self.declares = set(), set(), set()
        self.calls = self.stays = False
        self.jumps = set()
        if step.kind == "let":
            self.binds(step.pattern)
            self.stays = step.other is not None
        elif step.value.kind == "jump":
            self.stays = True
        self.walk(step)

    def binds(self, pattern):
        if pattern.kind == "bind":
            self.declares.add(pattern.name)
        for part in pattern.parts.get("parts_of", []):
            self.binds(part)

    def walk(self, node):
        if node.kind == "assign":
            place = place_of(node.target)
            self.writes.add(place)
            if node.op != "=":
                self.reads.add(place)
            indexes = [node.target.index] if node.target.kind == "index" else []
            return self.all(indexes + [node.value])
        if node.kind in ("path", "field") and place_of(node):  # a field of a call's answer is read from no place
            self.reads.add(place_of(node))
        self.calls |= node.kind == "call" and getattr(node.callee, "known", False)
        self.jumps |= {node.word} if node.kind == "jump" else {"return"} if node.kind == "try" else set()
        self.stays |= node.kind == "macro"
        lent = node.kind == "unary" and node.op in ("&", "&mut")
        self.stays |= lent or node.kind == "path" and (node.type or "").startswith("&mut")
        self.all(c for c in node.children() if c is not node.parts.get("callee") and c is not node.parts.get("pattern"))

    def all(self, nodes):
        for node in nodes:
            self.walk(node)

    def independent(self, other):
        """whether the order of two statements does not matter: a `return` of one drops what the other wrote"""
        declared = {(name,) for name in self.declares}, {(name,) for name in other.declares}
        mine, theirs = self.writes | declared[0], other.writes | declared[1]
        clash = [(mine, other.reads), (mine, theirs), (theirs, self.reads)]
        ends = self.jumps and other.jumps or (self.jumps | other.jumps) - {"return"}
        return not ends and not any(meets(a, b) for a, b in clash)


def place_of(node):
    """the local, and the fields in it, that a value is read from or stored to; an element counts as its whole array"""
    if node.kind == "field":
        base = place_of(node.base)
        return (*base, node.name) if base else ()
    if node.kind == "path":
        return (node.words[0],)
    return place_of(node.base if "base" in node.parts else node.value) if node.kind in ("index", "unary") else ()


def meets(ones, others):
    """whether some place of `ones` holds, is, or lies in one of `others`"""
    return any(a[: len(b)] == b[: len(a)] for a in ones for b in others)


# ---- numbers


def next_wholes(text):
    """a whole number's two neighbours, in its own base and with its own suffix"""
    digits, suffix = re.fullmatch(r"(0x[0-9a-fA-F_]+?|0b[01_]+?|[\d_]+?)((?:[iu](?:8|16|32|64|size))?)", text).groups()
    value = int(digits.replace("_", ""), 0)
    shape = "0x%x" if digits.startswith("0x") else "%d"
    return [shape % n + suffix for n in (value - 1, value + 1) if n >= 0]


def next_floats(text, width):
    """the floats one unit in the last place below and above; below zero there is none"""
    digits, suffix = re.fullmatch(r"([\d_.eE+-]+?)((?:f32|f64)?)", text).groups()
    value = float(digits.replace("_", ""))
    if width == "f64":
        near = [math.nextafter(value, 0.0), math.nextafter(value, math.inf)]
        return [written(repr(x)) + suffix for x in near if x != value]
    bits = struct.unpack("<I", struct.pack("<f", value))[0]
    near = [struct.unpack("<f", struct.pack("<I", b))[0] for b in (bits - 1, bits + 1) if b >= 0]
    return [written(f"{x:.9g}") + suffix for x in near]


def written(digits):
    """a float as the language writes it, with a point"""
    mantissa, e, exponent = digits.partition("e")
    return (mantissa if "." in mantissa else mantissa + ".0") + (e and "e" + str(int(exponent)))


def edits_of(names, crate):
    """kind -> the sites of that kind, each a list of edits, in the order of the text"""
    kinds = {}
    for file in (f for f in names.files if f.crate == crate):
        items = [i for i in file.items if i.kind in ("const", "fn")]
        sites = [s for item in items for s in Sites(names, file, item).found.items()]
        kinds = add_sites(kinds, sites)
    return kinds


def add_sites(kinds, sites):
    for (kind, *_), edits in sites:
        kinds.setdefault(kind, []).append(edits)
    return kinds


class Pool:
    """draws the edits of a crate without repeating one: a kind, then a site, then an edit"""

    def __init__(self, kinds, random):
        self.kinds = {k: [list(site) for site in sites] for k, sites in sorted(kinds.items())}
        self.random = random
        self.drawn = set()

    def draw(self):
        while self.kinds:
            kind = self.random.choices(list(self.kinds), [WEIGHTS.get(k, 1.0) for k in self.kinds])[0]
            edit = self.draw_of(kind)
            if edit.change not in self.drawn:
                self.drawn.add(edit.change)
                return edit
        return None

    def draw_of(self, kind):
        sites = self.kinds[kind]
        site = self.random.choice(sites)
        edit = site.pop(self.random.randrange(len(site)))
        if not site:
            sites.remove(site)
        if not sites:
            del self.kinds[kind]
        return edit
