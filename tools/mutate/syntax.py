"""Reads a Rattle source file into items, statements and expressions, each with the place of its text.

Comments, contracts and `ghost` items are blanked first, so nothing of them is ever read."""
import re

COMMENT = re.compile(r'b?"(?:\\.|[^"\\])*"|//[^\n]*')
GHOST_USE = re.compile(r"\bghost\s+use\b[^;]*;")
CLAUSE = re.compile(r"\b(?:(?:requires|ensures)\b\*?(?:[ \t]+\w+)?|ghost\b(?:[ \t]+\w+:?)?)\s*\{")
TOKEN = re.compile(
    r"(?P<number>0x[0-9a-fA-F_]+(?:[iu](?:8|16|32|64|size))?|0b[01_]+(?:[iu](?:8|16|32|64|size))?"
    r"|\d[\d_]*(?:\.\d[\d_]*)?(?:[eE][+-]?\d+)?(?:f32|f64|[iu](?:8|16|32|64|size))?)"
    r'|(?P<bytes>b?"(?:\\.|[^"\\])*"|b\'(?:\\.|[^\'\\])+\')'
    r"|(?P<lifetime>'\w+)|(?P<word>[A-Za-z_]\w*)"
    r"|(?P<mark><<=|>>=|\.\.=|->|=>|::|\.\.|&&|\|\||==|!=|<=|>=|<<|>>|[-+*/%&|^]=|[-+*/%&|^!<>=.,;:(){}\[\]#@?])"
    r"|(?P<space>\s+)|(?P<other>.)"
)
TIGHTNESS = {"||": 1, "&&": 2, "==": 3, "!=": 3, "<": 3, ">": 3, "<=": 3, ">=": 3, "|": 4, "^": 5, "&": 6}
TIGHTNESS |= {"<<": 7, ">>": 7, "+": 8, "-": 8, "*": 9, "/": 9, "%": 9}
ASSIGNS = ("=", "+=", "-=", "*=", "/=", "%=", "&=", "|=", "^=", "<<=", ">>=")
BLOCKS = ("if", "match", "while", "loop", "for", "block")


class SyntaxFault(Exception):
    """text that this reader does not know"""


class Node:
    """a piece of the source: its kind, its place, and its parts by name"""

    def __init__(self, kind, start, end, **parts):
        self.kind, self.start, self.end = kind, start, end
        self.type = None
        self.parts = parts
        self.__dict__.update(parts)

    def children(self):
        for part in self.parts.values():
            if isinstance(part, Node):
                yield part
            elif isinstance(part, list):
                yield from (p for p in part if isinstance(p, Node))


def spaces(text):
    return re.sub(r"[^\n]", " ", text)


def close_of(text, start):
    """the place after the brace that closes the one at `start`"""
    depth = 0
    for at in range(start, len(text)):
        depth += {"{": 1, "}": -1}.get(text[at], 0)
        if depth == 0:
            return at + 1
    raise SyntaxFault("a clause whose brace is not closed")


def blank(text):
    """the text with comments, contracts and `ghost` items as spaces: every place stays what it was"""
    text = COMMENT.sub(lambda m: m.group() if m.group().startswith(("b", '"')) else spaces(m.group()), text)
    text = GHOST_USE.sub(lambda m: spaces(m.group()), text)
    clause = CLAUSE.search(text)
    while clause:
        end = close_of(text, clause.end() - 1)
        text = text[: clause.start()] + spaces(text[clause.start() : end]) + text[end:]
        clause = CLAUSE.search(text)
    return text


class Reader:
    """a cursor over the tokens of a text"""

    def __init__(self, text):
        self.tokens = [(m.lastgroup, m.group(), m.start(), m.end()) for m in TOKEN.finditer(text) if m.lastgroup != "space"]
        self.at = 0

    def kind(self):
        return self.tokens[self.at][0] if self.at < len(self.tokens) else "end"

    def peek(self, ahead=0):
        at = self.at + ahead
        return self.tokens[at][1] if at < len(self.tokens) else ""

    def here(self):
        return self.tokens[self.at][2] if self.at < len(self.tokens) else self.last()

    def last(self):
        return self.tokens[self.at - 1][3] if self.at else 0

    def next(self):
        if self.at >= len(self.tokens):
            raise SyntaxFault("the text ends too early")
        self.at += 1
        return self.tokens[self.at - 1][1]

    def take(self, mark):
        if self.peek() == mark and self.kind() != "bytes":
            self.at += 1
            return True
        return False

    def expect(self, mark):
        if not self.take(mark):
            raise SyntaxFault(f"`{mark}` is expected, and `{self.peek()}` found, at {self.here()}")

    def word(self):
        if self.kind() != "word":
            raise SyntaxFault(f"a name is expected, and `{self.peek()}` found, at {self.here()}")
        return self.next()

    def many(self, close, one):
        """what `one` reads, with commas between, up to the mark `close`"""
        found = []
        while not self.take(close):
            found.append(one())
            if not self.take(","):
                self.expect(close)
                break
        return found


class Types(Reader):
    """types, as nested tuples"""

    def type(self):
        if self.take("&"):
            if self.kind() == "lifetime":
                self.next()
            return ("mut" if self.take("mut") else "ref", self.type())
        if self.take("["):
            element = self.type()
            if not self.take(";"):
                self.expect("]")
                return ("slice", element)
            start = self.here()
            self.expression()
            end = self.last()
            self.expect("]")
            return ("array", element, (start, end))
        if self.take("("):
            self.expect(")")
            return ("unit",)
        if self.peek() in ("impl", "dyn"):
            self.next()
        words = self.path()
        if self.peek() != "<":
            return ("name", words)
        start = self.here()
        self.skip_angles()
        return ("applied", words, (start, self.last()))

    def skip_angles(self):
        """what stands between `<` and the `>` that closes it"""
        depth = 0
        while depth or self.peek() == "<":
            depth += {"<": 1, ">": -1, ">>": -2}.get(self.next(), 0)

    def path(self):
        """the words of a path; the lifetimes that a type is applied to are passed over"""
        words = [self.word()]
        while self.take("::"):
            words.append(self.word())
        if self.peek() == "<" and self.tokens[self.at + 1][0] == "lifetime":
            while self.next() != ">":
                pass
        return words


class Patterns(Types):
    def pattern(self):
        start = self.here()
        found = [self.simple_pattern()]
        while self.take("|"):
            found.append(self.simple_pattern())
        return found[0] if len(found) == 1 else Node("either", start, self.last(), options=found)

    def simple_pattern(self):
        start = self.here()
        self.take("mut")
        if self.kind() in ("number", "bytes") or self.peek() in ("-", "true", "false", "_"):
            return self.plain_pattern(start)
        words = self.path()
        parts = []
        if self.take("("):
            parts = self.many(")", self.pattern)
        elif self.take("{"):
            parts = self.many("}", self.field_pattern)
            return Node("fields", start, self.last(), words=words, parts_of=parts)
        elif len(words) == 1 and not words[0][0].isupper():
            return Node("bind", start, self.last(), name=words[0])
        return Node("variant", start, self.last(), words=words, parts_of=parts)

    def field_pattern(self):
        """a field by its name, bound to a local of that name or taken apart"""
        start = self.here()
        name = self.word()
        part = self.pattern() if self.take(":") else Node("bind", start, self.last(), name=name)
        part.field = name
        return part

    def plain_pattern(self, start):
        self.take("-")
        self.next()
        if self.peek() in ("..", "..="):
            self.next()
            self.take("-")
            self.next()
        return Node("plain", start, self.last())


class Expressions(Patterns):
    def expression(self, structs=True):
        start = self.here()
        if self.peek() in ("return", "break", "continue"):
            return self.jump(start, structs)
        left = None if self.peek() == ".." else self.binary(0, structs)
        if self.peek() in ("..", "..="):
            self.next()
            right = self.binary(0, structs) if self.peek() not in ("]", ")", "{", ",") else None
            return Node("range", start, self.last(), left=left, right=right)
        if self.peek() in ASSIGNS:
            place = self.here()
            op = self.next()
            value = self.expression(structs)
            return Node("assign", start, self.last(), op=op, place=place, target=left, value=value)
        return left

    def jump(self, start, structs):
        word = self.next()
        if self.kind() == "lifetime":
            self.next()
        value = None if self.peek() in (";", "}", ",") else self.expression(structs)
        return Node("jump", start, self.last(), word=word, value=value)

    def binary(self, floor, structs):
        start = self.here()
        left = self.unary(structs)
        while True:
            op = self.peek()
            if op == "as":
                self.next()
                left = Node("cast", start, self.last(), value=left, to=self.type())
                left.end = self.last()
            elif TIGHTNESS.get(op, 0) > floor:
                place = self.here()
                self.next()
                right = self.binary(TIGHTNESS[op], structs)
                left = Node("binary", start, self.last(), op=op, place=place, left=left, right=right)
            else:
                return left

    def unary(self, structs):
        start = self.here()
        op = self.peek()
        if op in ("-", "!", "*", "&"):
            self.next()
            op = "&mut" if op == "&" and self.take("mut") else op
            value = self.tight(structs)
            return Node("unary", start, self.last(), op=op, value=value)
        return self.postfix(self.primary(structs), start)

    def tight(self, structs):
        """the operand of a unary operator, which binds closer than `as`"""
        start = self.here()
        if self.peek() in ("-", "!", "*", "&"):
            return self.unary(structs)
        return self.postfix(self.primary(structs), start)

    def postfix(self, value, start):
        while True:
            if self.take("."):
                value = self.member(value, start)
            elif self.take("["):
                index = self.expression()
                self.expect("]")
                value = Node("index", start, self.last(), base=value, index=index)
            elif self.peek() == "(" and value.kind == "path":
                self.next()
                args = self.many(")", self.expression)
                value = Node("call", start, self.last(), callee=value, args=args)
            elif self.take("?"):
                value = Node("try", start, self.last(), value=value)
            elif self.peek() == "!" and value.kind == "path" and self.peek(1) in ("(", "[", "{"):
                self.next()
                self.skip_brackets()
                value = Node("macro", start, self.last())
            else:
                return value

    def skip_brackets(self):
        """a macro's arguments: they are not read"""
        depth = 0
        while True:
            kind, mark = self.kind(), self.next()
            depth += 0 if kind == "bytes" else (mark in ("(", "[", "{")) - (mark in (")", "]", "}"))
            if depth == 0:
                return

    def member(self, base, start):
        place = self.here()
        name = self.next()
        if self.take("("):
            args = self.many(")", self.expression)
            return Node("method", start, self.last(), base=base, name=name, args=args)
        return Node("field", start, self.last(), base=base, name=name, place=place)

    def primary(self, structs):
        start, word = self.here(), self.peek()
        if self.kind() == "number" or word in ("true", "false") or self.kind() == "bytes":
            kind = "bytes" if self.kind() == "bytes" else "bool" if word in ("true", "false") else "number"
            return Node(kind, start, start + len(self.next()), text=word)
        if self.take("("):
            if self.take(")"):
                return Node("unit", start, self.last())
            inner = self.expression()
            self.expect(")")
            return Node("paren", start, self.last(), inner=inner)
        if self.take("["):
            return self.array(start)
        if word in ("if", "match", "while", "loop", "for", "{") or self.kind() == "lifetime":
            return self.compound(start)
        words = self.path()
        if self.peek() == "{" and structs and words[-1][0].isupper():
            return self.record(start, words)
        return Node("path", start, self.last(), words=words)

    def array(self, start):
        if self.take("]"):
            return Node("array", start, self.last(), items=[])
        first = self.expression()
        if self.take(";"):
            length = self.expression()
            self.expect("]")
            return Node("repeat", start, self.last(), value=first, length=length)
        self.take(",")
        return Node("array", start, self.last(), items=[first] + self.many("]", self.expression))

    def record(self, start, words):
        self.expect("{")
        fields = self.many("}", self.record_field)
        return Node("record", start, self.last(), words=words, fields=fields)

    def record_field(self):
        start = self.here()
        name = self.next()
        if self.take(":"):
            return Node("set", start, self.last(), name=name, value=self.expression())
        value = Node("path", start, self.last(), words=[name])
        value.label = name
        return Node("set", start, self.last(), name=name, value=value)


class Statements(Expressions):
    def compound(self, start):
        if self.kind() == "lifetime":
            self.next()
            self.expect(":")
        word = self.peek()
        if word == "{":
            return self.block()
        return getattr(self, "read_" + self.next())(start)

    def read_if(self, start):
        if self.take("let"):
            pattern = self.pattern()
            self.expect("=")
        else:
            pattern = None
        test = self.expression(structs=False)
        then = self.block()
        other = None
        if self.take("else"):
            other = self.compound(self.here())
        return Node("if", start, self.last(), pattern=pattern, test=test, then=then, other=other)

    def read_while(self, start):
        pattern = self.pattern() if self.take("let") else None
        if pattern:
            self.expect("=")
        test = self.expression(structs=False)
        body = self.block()
        return Node("while", start, self.last(), pattern=pattern, test=test, body=body)

    def read_loop(self, start):
        body = self.block()
        return Node("loop", start, self.last(), body=body)

    def read_for(self, start):
        self.take("mut")
        name = self.word()
        self.expect("in")
        over = self.expression(structs=False)
        body = self.block()
        return Node("for", start, self.last(), name=name, over=over, body=body)

    def read_match(self, start):
        value = self.expression(structs=False)
        self.expect("{")
        arms = []
        while not self.take("}"):
            arms.append(self.arm())
        return Node("match", start, self.last(), value=value, arms=arms)

    def arm(self):
        start = self.here()
        pattern = self.pattern()
        self.expect("=>")
        body = self.expression()
        if not self.take(",") and self.peek() != "}" and body.kind not in BLOCKS:
            raise SyntaxFault(f"an arm that does not end, at {start}")
        return Node("arm", start, self.last(), pattern=pattern, body=body)

    def block(self):
        start = self.here()
        self.expect("{")
        steps, tail = [], None
        while not self.take("}"):
            step = self.statement()
            if self.peek() == "}" and step.kind == "step" and not step.ended:
                tail = step.value
            else:
                steps.append(step)
        return Node("block", start, self.last(), steps=steps, tail=tail)

    def statement(self):
        start = self.here()
        if self.take("let"):
            return self.let(start)
        first = self.peek()
        if first in BLOCKS or first == "{" or self.kind() == "lifetime":
            value = self.compound(start)
            ended = self.take(";")
        else:
            value = self.expression()
            ended = self.take(";")
            if not ended and self.peek() != "}":
                raise SyntaxFault(f"a statement that does not end, at {start}")
        return Node("step", start, self.last(), value=value, ended=ended)

    def let(self, start):
        pattern = self.pattern()
        declared = self.type() if self.take(":") else None
        self.expect("=")
        value = self.expression()
        other = self.block() if self.take("else") else None
        self.expect(";")
        return Node("let", start, self.last(), pattern=pattern, declared=declared, value=value, other=other)


class Items(Statements):
    """a file's items; one that cannot be read is passed over, and named in `faults`"""

    def file(self):
        items, self.faults = [], []
        while self.at < len(self.tokens):
            start = self.at
            try:
                items += self.item()
            except SyntaxFault as fault:
                self.faults.append(str(fault))
                self.at = start
                self.skip()
        return items

    def skip(self):
        depth = 0
        while self.at < len(self.tokens):
            mark = self.next()
            depth += (mark in ("{", "[", "(")) - (mark in ("}", "]", ")"))
            if depth == 0 and mark in (";", "}"):
                return

    def item(self):
        start = self.here()
        while self.take("#"):
            while self.next() != "]":
                pass
        if self.take("pub") and self.take("("):
            self.skip_to(")")
        if self.take("extern"):
            self.skip_to_word("fn")
        word = self.next()
        known = {"use": self.uses, "mod": self.module, "struct": self.struct, "enum": self.enum}
        known |= {"const": self.const, "type": self.alias, "fn": self.function, "impl": self.impl}
        if word not in known:
            raise SyntaxFault(f"an item that begins with `{word}`, at {start}")
        found = known[word](start)
        return found if isinstance(found, list) else [found]

    def skip_to(self, mark):
        while self.next() != mark:
            pass

    def skip_to_word(self, word):
        while self.peek() != word:
            self.next()

    def uses(self, start, prefix=()):
        """one node for each name that a `use` brings"""
        found = self.use_tree(start, prefix)
        self.expect(";")
        return found

    def use_tree(self, start, prefix):
        if self.take("{"):
            groups = self.many("}", lambda: self.use_tree(start, prefix))
            return [one for group in groups for one in group]
        words = (*prefix, self.word())
        if self.take("::"):
            return self.use_tree(start, words)
        name = self.word() if self.take("as") else words[-1]
        return [Node("use", start, self.last(), name=name, words=list(words))]

    def module(self, start):
        name = self.word()
        self.expect(";")
        return Node("mod", start, self.last(), name=name)

    def struct(self, start):
        name = self.path()[0]
        if self.take("{"):
            fields = self.many("}", self.struct_field)
        elif self.take("("):
            fields = [(str(i), f[1]) for i, f in enumerate(self.many(")", lambda: ("", self.open_type())))]
            self.expect(";")
        else:
            fields = []
            self.expect(";")
        return Node("struct", start, self.last(), name=name, fields=fields)

    def open_type(self):
        self.take("pub")
        return self.type()

    def struct_field(self):
        self.take("pub")
        name = self.word()
        self.expect(":")
        return (name, self.type())

    def enum(self, start):
        name = self.word()
        self.expect("{")
        variants = self.many("}", self.enum_variant)
        return Node("enum", start, self.last(), name=name, variants=variants)

    def enum_variant(self):
        name = self.word()
        return (name, self.many(")", self.type) if self.take("(") else [])

    def const(self, start):
        name = self.word()
        self.expect(":")
        declared = self.type()
        self.expect("=")
        value = self.expression()
        self.expect(";")
        return Node("const", start, self.last(), name=name, declared=declared, value=value)

    def alias(self, start):
        name = self.word()
        self.expect("=")
        to = self.type()
        self.expect(";")
        return Node("alias", start, self.last(), name=name, to=to)

    def function(self, start, owner=None):
        name = self.word()
        if self.peek() == "<":
            self.skip_to(">")
        self.expect("(")
        params = self.many(")", lambda: self.parameter(owner))
        result = self.type() if self.take("->") else ("unit",)
        body = self.block()
        return Node("fn", start, self.last(), name=name, params=params, result=result, body=body, owner=owner)

    def parameter(self, owner):
        lent = self.take("&")
        changed = self.take("mut")
        if self.peek() == "self":
            itself = ("name", [owner])
            return (self.next(), ("mut" if changed else "ref", itself) if lent else itself)
        name = self.word()
        self.expect(":")
        return (name, self.type())

    def impl(self, start):
        owner = self.path()[0]
        self.expect("{")
        found = []
        while not self.take("}"):
            self.take("pub")
            self.expect("fn")
            found.append(self.function(start, owner))
        return found


def read(text):
    """the items of a file, and what could not be read"""
    reader = Items(blank(text))
    return reader.file(), reader.faults
