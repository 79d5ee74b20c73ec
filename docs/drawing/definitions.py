"""Computes with the definitions in crates/*/specs, so that a drawing shows their numbers and writes none down again.

It knows as much of the language as definitions of bytes use: clauses over lists, numbers, records, application, ++ and ∷. A definition
that says more is an error here, and never a wrong drawing."""
import re
from collections import namedtuple

# A run of bytes: how many (a letter where the definition leaves it open), and what they say (a number, or a name where it is open).
Field = namedtuple("Field", "size says")

TOKEN = re.compile(r"0x[0-9a-fA-F]+|\d+|\[\]|∷|\+\+|[+*/%(){};=]|\.[^\W\d]\w*|[^\s(){};=.]+")
CLAUSE = re.compile(r"^(?!use |pub |abbrev |unfoldable |unfolding |module )([^\s:]+)((?: [^:=]*)?) = ?(.*)$")
ATOM = re.compile(r"\([^)]*\)|\S+")
OPERATORS = {"+": lambda a, b: a + b, "*": lambda a, b: a * b, "/": lambda a, b: a // b, "%": lambda a, b: a % b}


def length(items):
    sizes = [item.size if isinstance(item, Field) else 1 for item in items]
    return sizes[0] if len(sizes) == 1 else sum(sizes)


BUILT_IN = {
    "le": (2, lambda size, says: [Field(size, says)]),
    "replicate": (2, lambda size, says: [Field(size, says)]),
    "length": (1, length),
    "get_or": (3, lambda items, i, default: items[i] if i < len(items) else default),
    "eqb": (2, lambda a, b: a == b),
    "true": (0, lambda: True),
    "false": (0, lambda: False),
}


def matched(pattern, value, env):
    """Whether a value has a clause's form; its parts go to env."""
    if pattern in ("true", "false"):
        return value == (pattern == "true")
    if pattern == "[]":
        return value == []
    if "∷" in pattern:
        head, tail = pattern.strip("()").split(" ∷ ")
        if value == []:
            return False
        env.update({head: value[0], tail: value[1:]})
        return True
    env[pattern] = value
    return True


class Definitions:
    def __init__(self, paths):
        self.clauses = {}
        for path in paths:
            with open(path, encoding="utf-8") as f:
                self.take(re.sub(r"(?:^|(?<=\s))--.*", "", f.read(), flags=re.M))

    def take(self, text):
        # a line that is indented goes on with the one above
        for line in re.sub(r"\n[ \t]+", " ", text).split("\n"):
            found = CLAUSE.match(line)
            if found:
                name, patterns, body = found.groups()
                self.clauses.setdefault(name, []).append((ATOM.findall(patterns), TOKEN.findall(body)))

    def arity(self, name):
        if name in BUILT_IN:
            return BUILT_IN[name][0]
        return len(self.clauses[name][0][0])

    def value(self, name, *arguments):
        """What a definition gives for arguments."""
        if name in BUILT_IN:
            return BUILT_IN[name][1](*arguments)
        for patterns, body in self.clauses[name]:
            env = {}
            if all([matched(p, a, env) for p, a in zip(patterns, arguments)]):
                return Expression(self, body, env).whole()
        raise ValueError("no clause of %s takes %r" % (name, arguments))


class Expression:
    """A definition's right side, computed as it is read."""

    def __init__(self, definitions, tokens, env):
        self.definitions, self.tokens, self.env, self.at = definitions, tokens, env, 0

    def peek(self):
        return self.tokens[self.at] if self.at < len(self.tokens) else None

    def next(self):
        self.at += 1
        return self.tokens[self.at - 1]

    def expect(self, token):
        if self.next() != token:
            raise ValueError("%s was expected in: %s" % (token, " ".join(self.tokens)))

    def whole(self):
        value = self.joined()
        if self.peek() is not None:
            raise ValueError("%s is not understood in: %s" % (self.peek(), " ".join(self.tokens)))
        return value

    def joined(self):
        left = self.infix("+", lambda: self.infix("*/%", self.applied))
        if self.peek() == "∷":
            self.next()
            return [left] + self.joined()
        if self.peek() == "++":
            self.next()
            return left + self.joined()
        return left

    def infix(self, operators, operand):
        left = operand()
        while self.peek() is not None and self.peek() in operators:
            left = OPERATORS[self.next()](left, operand())
        return left

    def ended(self):
        return self.peek() in (None, ";", "}", ")")

    def applied(self):
        name = self.peek()
        if name[0].isupper():
            return self.constructed()
        if name in self.env or not (name in BUILT_IN or name in self.definitions.clauses):
            return self.atom()
        self.next()
        if self.ended() and self.definitions.arity(name):
            # a function that is handed on, as a bank's hash is, stands for itself
            return name
        return self.definitions.value(name, *[self.atom() for _ in range(self.definitions.arity(name))])

    def constructed(self):
        parts = [self.next()]
        while not self.ended():
            parts.append(self.atom())
        return tuple(parts)

    def atom(self):
        token = self.next()
        if token == "(":
            value = self.joined()
            self.expect(")")
        elif token == "record":
            value = self.record()
        elif token == "[]":
            value = []
        elif token[0].isdigit():
            value = int(token, 0)
        elif token in self.env:
            value = self.env[token]
        elif token in self.definitions.clauses and not self.definitions.arity(token):
            value = self.definitions.value(token)
        else:
            # defined elsewhere, such as a hash: it stands for itself
            value = token
        while self.peek() and self.peek()[0] == ".":
            value = value[self.next()[1:]]
        return value

    def record(self):
        fields = {}
        self.expect("{")
        while self.peek() != "}":
            name = self.next()
            self.expect("=")
            fields[name] = self.joined()
            if self.peek() == ";":
                self.next()
        self.expect("}")
        return fields
