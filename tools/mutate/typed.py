"""The names and the types of a repository's library crates: what each name in a file means, and the type of each expression.

A type is a string: `f32`, `records::body::BodyState`, `[records::body::BodyState; 32]`, `&[u8]`. It is None where this reader does not know
it, and then nothing that needs the type is edited."""
import os
import re

import syntax

WHOLE = ("u8", "u16", "u32", "u64", "usize", "i8", "i16", "i32", "i64", "isize")
SIGNED = ("i8", "i16", "i32", "i64", "isize")
FLOATS = ("f32", "f64")
PRIMITIVE = (*WHOLE, *FLOATS, "bool")
BITS = {"f32": "u32", "f64": "u64"}
TESTS = ("==", "!=", "<", ">", "<=", ">=")


def listed_crates(root):
    """the crates of crates.txt in order, each with what it depends on"""
    found = {}
    for line in open(os.path.join(root, "crates.txt"), encoding="utf-8"):
        name, colon, deps = line.split("#")[0].partition(":")
        if colon:
            found[name.split()[0]] = deps.split()
    return found


def lines_of(root, crates):
    """the lines of crates.txt of some crates"""
    with open(os.path.join(root, "crates.txt"), encoding="utf-8") as f:
        return "".join(line for line in f if (line.partition(":")[0].split() or [""])[0] in crates)


def libraries(root):
    crates = listed_crates(root)
    return {c: deps for c, deps in crates.items() if os.path.exists(os.path.join(root, "crates", c, "src", "lib.rt"))}


class File:
    """a source file: its crate, its module's path, its text and its items"""

    def __init__(self, root, crate, inside):
        self.crate, self.path = crate, f"crates/{crate}/src/{inside}"
        with open(os.path.join(root, self.path), encoding="utf-8") as f:
            self.text = f.read()
        words = [w for w in inside[:-3].split("/") if w not in ("lib", "mod")]
        self.module = "::".join([crate, *words])
        self.items, self.faults = syntax.read(self.text)
        self.brought = {i.name: self.whole(i.words) for i in self.items if i.kind == "use"}

    def whole(self, words):
        """a path of a `use` line, from the crate on"""
        above = {"crate": self.crate, "self": self.module, "super": self.module.rpartition("::")[0]}
        return "::".join([above.get(words[0], words[0]), *words[1:]])

    def meaning(self, words):
        """the whole path that `words` has in this file"""
        if words[0] in self.brought:
            return "::".join([self.brought[words[0]], *words[1:]])
        if words[0] in ("crate", "self", "super"):
            return self.whole(words)
        return "::".join([self.module, *words]) if len(words) == 1 or words[0][0].isupper() else "::".join(words)


def source_files(root, crate):
    top = os.path.join(root, "crates", crate, "src")
    # `rt check` does not read a test, so an edit of one shows nothing
    named = [os.path.join(folder, f) for folder, _, files in os.walk(top) for f in files if f != "tests.rt"]
    found = [f for f in named if f.endswith(".rt")]
    return sorted(os.path.relpath(f, top) for f in found)


class Names:
    """what the items of all library crates declare, by whole path"""

    def __init__(self, root, crates):
        self.crates = crates
        self.files = [File(root, c, f) for c in crates for f in source_files(root, c)]
        self.structs, self.variants, self.consts, self.functions = {}, {}, {}, {}
        items = [(f, i) for f in self.files for i in f.items]
        self.aliases = {f"{f.module}::{i.name}": (f, i.to) for f, i in items if i.kind == "alias"}
        for file, item in items:
            self.declare(file, item)

    def file(self, path):
        return next(f for f in self.files if f.path == path)

    def declare(self, file, item):
        path = f"{file.module}::{getattr(item, 'name', '')}"
        if item.kind == "struct":
            self.structs[path] = {name: self.type(file, t) for name, t in item.fields}
        elif item.kind == "enum":
            self.variants[path] = {name: [self.type(file, t) for t in types] for name, types in item.variants}
        elif item.kind == "const":
            self.consts[path] = self.type(file, item.declared)
        elif item.kind == "fn":
            owner = f"{file.module}::{item.owner}::{item.name}" if item.owner else path
            self.functions[owner] = ([self.type(file, t) for _, t in item.params], self.type(file, item.result))

    def type(self, file, t):
        """a type of the source as a string"""
        if t[0] == "name":
            return self.named(file, t[1])
        if t[0] == "array":
            return f"[{self.type(file, t[1])}; {file.text[t[2][0] : t[2][1]]}]"
        if t[0] == "unit":
            return "()"
        if t[0] == "applied":
            return self.named(file, t[1]) + file.text[t[2][0] : t[2][1]]
        inner = self.type(file, t[1])
        return {"slice": f"[{inner}]", "ref": f"&{inner}", "mut": f"&mut {inner}"}[t[0]]

    def named(self, file, words):
        if words[0] in PRIMITIVE:
            return words[0]
        path = file.meaning(words)
        if path in self.aliases:
            return self.type(*self.aliases[path])
        return path

    def seen_by(self, crate, const):
        """the other crates whose code names a constant, or one that is made of it"""
        consts = [(i.name, words_of(f.text[i.start : i.end])) for f in self.files for i in f.items if i.kind == "const"]
        made, more = {const}, {const}
        while more:
            more = {name for name, words in consts if words & made} - made
            made |= more
        return sorted({f.crate for f in self.files if f.crate != crate and made & words_of(f.text)})

    def visible_consts(self, file):
        """the constants that a file names by one word, with their types"""
        own = {i.name: f"{file.module}::{i.name}" for i in file.items if i.kind == "const"}
        return {name: self.consts[path] for name, path in {**file.brought, **own}.items() if path in self.consts}


def words_of(text):
    return set(re.findall(r"\w+", text))


def behind(t):
    """the type behind references"""
    return re.sub(r"^(?:&(?:mut )?)+", "", t) if t else t


def element(t):
    inner = behind(t) or ""
    if not inner.startswith("["):
        return None
    return inner[1:-1].rpartition(";")[0] or inner[1:-1]


class Typer:
    """gives each expression of one function or constant its type, and each operand the locals in its scope"""

    def __init__(self, names, file):
        self.names, self.file = names, file
        self.locals, self.result = {}, None

    def item(self, item):
        if item.kind == "const":
            self.give(item.value, self.names.type(self.file, item.declared))
        else:
            self.locals = {name: self.names.type(self.file, t) for name, t in item.params}
            self.result = self.names.type(self.file, item.result)
            self.give(item.body, self.result)

    def give(self, node, wanted=None):
        if node is None:
            return None
        node.scope = dict(self.locals)
        node.type = getattr(self, "type_" + node.kind)(node, wanted)
        return node.type

    def both(self, left, right, wanted=None):
        """the one type of two operands; an untyped number takes that of the other"""
        found = self.give(left, wanted)
        if found:
            self.give(right, found)
            return found
        found = self.give(right, wanted)
        return self.give(left, found) or found

    # ---- leaves

    def type_number(self, node, wanted):
        suffix = re.search(r"(?:f32|f64|[iu](?:8|16|32|64|size))$", node.text)
        if suffix and not (node.text.startswith("0x") and suffix.group()[0] == "f"):
            return suffix.group()
        is_float = not node.text.startswith("0x") and re.search(r"[.eE]", node.text)
        return wanted if wanted in (FLOATS if is_float else WHOLE) else None

    def type_bool(self, node, wanted):
        return "bool"

    def type_bytes(self, node, wanted):
        return "u8" if node.text.startswith("b'") else None

    def type_macro(self, node, wanted):
        return None

    def type_try(self, node, wanted):
        self.give(node.value)
        return None

    def type_unit(self, node, wanted):
        return "()"

    def type_path(self, node, wanted):
        node.of = "local" if len(node.words) == 1 and node.words[0] in self.locals else None
        if node.of:
            return self.locals[node.words[0]]
        path = self.file.meaning(node.words)
        if path in self.names.consts:
            node.of = "const"
            return self.names.consts[path]
        enum = self.enum_of(node.words)
        if enum:
            node.of = "variant"
        return enum

    def enum_of(self, words):
        """the enum whose variant a path names"""
        path = self.file.meaning(words[:-1]) if len(words) > 1 else None
        return path if path in self.names.variants else None

    # ---- operators

    def type_paren(self, node, wanted):
        return self.give(node.inner, wanted)

    def type_unary(self, node, wanted):
        if node.op in ("&", "&mut"):
            inner = self.give(node.value)
            return inner and ("&mut " if node.op == "&mut" else "&") + inner
        inner = self.give(node.value, wanted)
        return behind(inner) if node.op == "*" else inner

    def type_binary(self, node, wanted):
        if node.op in ("&&", "||"):
            self.give(node.left, "bool")
            self.give(node.right, "bool")
            return "bool"
        if node.op in ("<<", ">>"):
            self.give(node.right, "u32")
            return self.give(node.left, wanted)
        if node.op in TESTS:
            self.both(node.left, node.right)
            return "bool"
        return self.both(node.left, node.right, wanted)

    def type_cast(self, node, wanted):
        self.give(node.value)
        return self.names.type(self.file, node.to)

    def type_range(self, node, wanted):
        self.give(node.left, "usize")
        self.give(node.right, "usize")
        return None

    def type_assign(self, node, wanted):
        self.give(node.value, self.give(node.target))
        return "()"

    # ---- parts of values

    def type_field(self, node, wanted):
        owner = behind(self.give(node.base))
        return self.names.structs.get(owner, {}).get(node.name)

    def type_index(self, node, wanted):
        base = self.give(node.base)
        self.give(node.index, "usize")
        return None if node.index.kind == "range" else element(base)

    def type_array(self, node, wanted):
        for item in node.items:
            self.give(item, element(wanted))
        return wanted

    def type_repeat(self, node, wanted):
        found = self.give(node.value, element(wanted))
        return wanted or found and f"[{found}; {self.file.text[node.length.start : node.length.end]}]"

    def type_record(self, node, wanted):
        path = self.names.named(self.file, node.words)
        fields = self.names.structs.get(path, {})
        for one in node.fields:
            one.type = self.give(one.value, fields.get(one.name))
        return path if fields else None

    # ---- calls

    def type_call(self, node, wanted):
        params, result = self.signature(node.callee.words, len(node.args), node.callee)
        for arg, t in zip(node.args, params):
            self.give(arg, t)
        return result

    def signature(self, words, count, callee):
        unknown = [None] * count
        if words[0] in BITS and words[-1] == "from_bits":
            return [BITS[words[0]]], words[0]
        if words[0] in BITS and words[-1] == "to_bits":
            return [words[0]], BITS[words[0]]
        if words[0] in PRIMITIVE:
            return unknown, "u32"
        enum = self.enum_of(words)
        if enum:
            return self.names.variants[enum].get(words[-1], unknown), enum
        path = self.names.named(self.file, words)
        if path in self.names.structs:
            return list(self.names.structs[path].values()), path
        callee.known = path in self.names.functions
        return self.names.functions.get(path, (unknown, None))

    def type_method(self, node, wanted):
        owner = behind(self.give(node.base))
        params, result = self.names.functions.get(f"{owner}::{node.name}", ([None] * (len(node.args) + 1), None))
        for arg, t in zip(node.args, params[1:]):
            self.give(arg, t)
        return "usize" if node.name == "len" else result

    # ---- statements

    def type_block(self, node, wanted):
        outside = dict(self.locals)
        for step in node.steps:
            self.give(step)
        found = self.give(node.tail, wanted) if node.tail else None
        self.locals = outside
        return found

    def type_step(self, node, wanted):
        return self.give(node.value)

    def type_let(self, node, wanted):
        declared = self.names.type(self.file, node.declared) if node.declared else None
        found = self.give(node.value, declared)
        self.give(node.other)
        self.bind(node.pattern, declared or found)
        return None

    def bind(self, pattern, t):
        """the locals that a pattern makes of a value"""
        if pattern.kind == "bind":
            self.locals[pattern.name] = t
        elif pattern.kind == "fields":
            fields = self.names.structs.get(t, {})
            for part in pattern.parts_of:
                self.bind(part, fields.get(part.field))
        elif pattern.kind == "variant":
            held = self.names.variants.get(self.enum_of(pattern.words), {}).get(pattern.words[-1], [])
            for part, inner in zip(pattern.parts_of, held):
                self.bind(part, inner)

    def type_if(self, node, wanted):
        outside = dict(self.locals)
        found = self.give(node.test, None if node.pattern else "bool")
        if node.pattern:
            self.bind(node.pattern, found)
        found = self.give(node.then, wanted)
        self.locals = outside
        return self.give(node.other, found or wanted) or found

    def type_while(self, node, wanted):
        outside = dict(self.locals)
        found = self.give(node.test, None if node.pattern else "bool")
        if node.pattern:
            self.bind(node.pattern, found)
        self.give(node.body)
        self.locals = outside
        return "()"

    def type_loop(self, node, wanted):
        self.give(node.body)
        return None

    def type_for(self, node, wanted):
        outside = dict(self.locals)
        self.give(node.over)
        ends = [e.type for e in (node.over.parts.get("left"), node.over.parts.get("right")) if e]
        self.locals[node.name] = next((t for t in ends if t), None)
        self.give(node.body)
        self.locals = outside
        return "()"

    def type_match(self, node, wanted):
        value = self.give(node.value)
        found = None
        for arm in node.arms:
            outside = dict(self.locals)
            self.bind(arm.pattern, value)
            found = self.give(arm.body, found or wanted) or found
            self.locals = outside
        return found

    def type_jump(self, node, wanted):
        self.give(node.value, self.result if node.word == "return" else None)
        return None
