"""One-place changes of the bodies of Rattle functions: what could be meant otherwise there, by the names and types in sight."""
import re

TOKEN = re.compile(r"""//[^\n]*|b"(?:[^"\\]|\\.)*"|b'(?:[^'\\]|\\.)'|'[a-z]+\b|\d+(?:_?[a-z]+\d*)?|[^\W\d]\w*"""
                   r"""|==|!=|<=|>=|&&|\|\||=>|->|::|\.\.=?|[-+*/%]=|\S""")
COMPARISONS = {"==": ["!=", "<=", ">="], "!=": ["==", "<", ">"], "<": ["<=", ">", "!="], "<=": ["<", ">=", "=="], ">": [">=", "<", "!="], ">=": [">", "<=", "=="]}
ARITHMETIC = {"+": ["-", "*"], "-": ["+"], "*": ["+"], "/": ["%"], "%": ["/"], "+=": ["-="], "-=": ["+="]}
OPEN, CLOSE = "([{", ")]}"


class Token:
    def __init__(self, match):
        self.text, self.start, self.end = match.group(), match.start(), match.end()


def tokens_of(text):
    return [Token(m) for m in TOKEN.finditer(text) if not m.group().startswith("//")]


def closing(tokens, i):
    """The place of the bracket that closes the one at i."""
    depth = 0
    for j in range(i, len(tokens)):
        depth += (tokens[j].text in OPEN) - (tokens[j].text in CLOSE)
        if depth == 0:
            return j
    return len(tokens) - 1


def split(tokens, start, end):
    """The places of what commas divide between two brackets, as pairs of a first and a last token."""
    parts, begin, i = [], start, start
    while i < end:
        if tokens[i].text in OPEN:
            i = closing(tokens, i)
        elif tokens[i].text == ",":
            parts.append((begin, i - 1))
            begin = i + 1
        i += 1
    if begin < end:
        parts.append((begin, end - 1))
    return parts


def plain(words):
    """A type without references, so that slices of each sort count as one."""
    return " ".join(w for w in words if w not in ("&", "mut", "pub") and not w.startswith("'"))


class Function:
    def __init__(self, name, params, result, body):
        self.name, self.params, self.result, self.body = name, params, result, body


class Source:
    """What a file declares: functions, fields of structs, variants of enums."""

    def __init__(self, text):
        self.text, self.tokens = text, tokens_of(text)
        self.functions, self.structs, self.enums, self.consts = [], {}, {}, []
        i = 0
        while i < len(self.tokens):
            word = self.tokens[i].text
            reader = {"fn": self.function, "struct": self.struct, "enum": self.enum, "const": self.const}.get(word)
            i = reader(i) if reader else i + 1

    def words(self, first, last):
        return [t.text for t in self.tokens[first:last + 1]]

    def named(self, first, last):
        """A name and its type."""
        at = next((k for k in range(first, last) if self.tokens[k].text == ":"), None)
        return (self.tokens[first].text, "Self") if at is None else (self.tokens[at - 1].text, plain(self.words(at + 1, last)))

    def function(self, i):
        name, at = self.tokens[i + 1].text, i + 2
        while self.tokens[at].text != "(":
            at += 1
        end = closing(self.tokens, at)
        params, result, at = [self.named(*p) for p in split(self.tokens, at + 1, end)], [], end + 1
        while self.tokens[at].text not in "{;":
            if self.tokens[at].text in ("requires", "ensures"):
                while self.tokens[at].text != "{":
                    at += 1
                at = closing(self.tokens, at)
            elif self.tokens[at].text != "->":
                result.append(self.tokens[at].text)
            at += 1
        end = closing(self.tokens, at)
        self.functions.append(Function(name, params, plain(result), (at, end)))
        return end + 1

    def struct(self, i):
        name, at = self.tokens[i + 1].text, i + 2
        while self.tokens[at].text not in "({;":
            at += 1
        end = closing(self.tokens, at)
        if self.tokens[at].text == "{":
            self.structs[name] = dict(self.named(*p) for p in split(self.tokens, at + 1, end))
        return end + 1

    def enum(self, i):
        end = closing(self.tokens, i + 2)
        self.enums[self.tokens[i + 1].text] = variants = {}
        for first, last in split(self.tokens, i + 3, end):
            payload = split(self.tokens, first + 2, last) if last > first else []
            variants[self.tokens[first].text] = [plain(self.words(*p)) for p in payload]
        return end + 1

    def const(self, i):
        end = next(k for k in range(i, len(self.tokens)) if self.tokens[k].text == ";")
        self.consts.append((self.tokens[i + 1].text, i + 2, end))
        return end + 1


class Known:
    """The declarations of all crates; those of the crate itself go first."""

    def __init__(self, sources):
        self.functions, self.structs, self.enums = {}, {}, {}
        for source in sources:
            self.functions.update((f.name, f) for f in source.functions)
            self.structs.update(source.structs)
            self.enums.update(source.enums)

    def parameters(self, tokens, i):
        """The types that the call at i asks for."""
        word, path = tokens[i].text, tokens[i - 1].text == "::" and tokens[i - 2].text
        if path in self.enums:
            return self.enums[path].get(word, [])
        function = self.functions.get(word)
        return [t for _, t in function.params] if function and tokens[i - 1].text != "." else []


class Body:
    """The mutants of one function. A mutant is a kind, a first and a last character, and the new text."""

    def __init__(self, source, function, known):
        self.text, self.tokens, self.known = source.text, source.tokens, known
        self.first, self.last = function.body
        self.scope = [(name, kind, -1) for name, kind in function.params]
        self.literals = {}
        self.declare()

    def at(self, i):
        return self.tokens[i].text

    def span(self, first, last):
        return self.text[self.tokens[first].start:self.tokens[last].end]

    def put(self, kind, first, last, new):
        return kind, self.tokens[first].start, self.tokens[last].end, new

    def exchange(self, kind, one, two):
        """Two spans change places."""
        between = self.text[self.tokens[one[1]].end:self.tokens[two[0]].start]
        return self.put(kind, one[0], two[1], self.span(*two) + between + self.span(*one))

    def type_of(self, name):
        return next((kind for word, kind, _ in reversed(self.scope) if word == name), None)

    def guess(self, i):
        """The type of what stands after a `let x =`."""
        word, after = self.at(i), self.at(i + 1)
        if after == "(" and word in self.known.functions:
            return self.known.functions[word].result
        if after == "::" and word in self.known.enums or after == "{" and word in self.known.structs:
            return word
        if after == "." and self.at(i + 3) == ";":
            return self.known.structs.get(self.type_of(word), {}).get(self.at(i + 2))
        return self.type_of(word) if after == ";" else None

    def declare(self):
        """Locals with their types, as far as they show; the braces of struct literals."""
        for i in range(self.first, self.last):
            word = self.at(i)
            if word == "let" and self.at(i + 2) != "::":
                name = i + 2 if self.at(i + 1) == "mut" else i + 1
                typed = self.at(name + 1) == ":"
                self.scope.append((self.at(name), self.at(name + 2) if typed else self.guess(name + 2), name))
            elif word == "for":
                self.scope.append((self.at(i + 1), "usize", i + 1))
            elif word in self.known.enums and self.at(i + 1) == "::" and self.is_pattern(i) and self.at(i + 3) == "(":
                payload = self.known.enums[word].get(self.at(i + 2), [])
                for kind, (name, _) in zip(payload, split(self.tokens, i + 4, closing(self.tokens, i + 3))):
                    self.scope.append((self.at(name), kind, name))
            elif word in self.known.structs and self.at(i + 1) == "{":
                self.literals[i + 1] = word

    def is_pattern(self, i):
        end = closing(self.tokens, i + 3) if self.at(i + 3) == "(" else i + 2
        return self.at(end + 1) in ("=>", "|") or self.at(i - 1) == "let"

    def mutants(self):
        for i in range(self.first + 1, self.last):
            for rule in (self.operators, self.constants, self.calls, self.operands, self.fields, self.variants, self.arms, self.deletions):
                yield from rule(i)

    def operators(self, i):
        word = self.at(i)
        binary = self.at(i - 1) in ")]" or self.at(i - 1)[0].isalnum()
        if word in COMPARISONS:
            yield from (self.put("comparison", i, i, c) for c in COMPARISONS[word])
        elif word in ("&&", "||"):
            yield self.put("connective", i, i, "||" if word == "&&" else "&&")
        elif word in ARITHMETIC and binary:
            yield from (self.put("arithmetic", i, i, c) for c in ARITHMETIC[word])
        elif word == "!":
            yield self.put("negation", i, i, "")
        elif word in ("if", "while") and self.at(i + 1) != "!":
            end = next(k for k in range(i, self.last) if self.at(k) == "{")
            if not any(self.at(k) in COMPARISONS for k in range(i, end)):
                yield self.put("negation", i, i, word + " !")

    def constants(self, i):
        yield from constants(self.tokens, i)

    def calls(self, i):
        """Neighbouring arguments, or fields of a literal, of one type change places."""
        if self.at(i) == "(" and re.match(r"\w", self.at(i - 1)):
            kinds = self.known.parameters(self.tokens, i - 1)
            parts = split(self.tokens, i + 1, closing(self.tokens, i))
            for k in range(min(len(parts), len(kinds)) - 1):
                if kinds[k] == kinds[k + 1] and self.span(*parts[k]) != self.span(*parts[k + 1]):
                    yield self.exchange("argument order", parts[k], parts[k + 1])
        elif i in self.literals:
            kinds = self.known.structs[self.literals[i]]
            parts = split(self.tokens, i + 1, closing(self.tokens, i))
            for one, two in zip(parts, parts[1:]):
                names = self.at(one[0]), self.at(two[0])
                values = [self.span(p[0] + 2, p[1]) if p[1] > p[0] else self.at(p[0]) for p in (one, two)]
                if kinds.get(names[0]) == kinds.get(names[1]) and values[0] != values[1]:
                    yield self.put("argument order", one[0], two[1], f"{names[0]}: {values[1]}, {names[1]}: {values[0]}")

    def shorthand(self, i):
        return self.at(i - 1) in "{," and self.at(i + 1) in ",}" and any(b < i < closing(self.tokens, b) and b == max(
            k for k in range(self.first, i) if self.at(k) in OPEN and closing(self.tokens, k) > i) for b in self.literals)

    def operands(self, i):
        """A variable gives way to the one declared before it and the one after it, of its type."""
        word = self.at(i)
        if self.at(i - 1) in (".", "::", "let", "mut") or self.at(i + 1) in ("::", "(", ":") or any(i == d for _, _, d in self.scope):
            return
        kind = self.type_of(word)
        same = list(dict.fromkeys(n for n, k, d in self.scope if k == kind and d < i))
        if kind and word in same:
            k = same.index(word)
            for other in dict.fromkeys(same[(k + d) % len(same)] for d in (1, -1)):
                if other != word:
                    yield self.put("operand", i, i, f"{word}: {other}" if self.shorthand(i) else other)

    def fields(self, i):
        word = self.at(i)
        if self.at(i - 1) != "." or not word[0].isalpha() or self.at(i + 1) == "(":
            return
        own = self.type_of(self.at(i - 2)) if self.at(i - 3) != "." else None
        for name, fields in self.known.structs.items():
            if word in fields and own in (None, name):
                same = [f for f, kind in fields.items() if kind == fields[word]]
                k = same.index(word)
                yield from (self.put("field", i, i, o) for o in dict.fromkeys(same[(k + d) % len(same)] for d in (1, -1)) if o != word)

    def variants(self, i):
        """A constructor gives way to one with the same payload, or with none."""
        variants = self.known.enums.get(self.at(i))
        if variants is None or self.at(i + 1) != "::" or self.is_pattern(i):
            return
        own, payload = self.at(i + 2), variants.get(self.at(i + 2), [])
        end = closing(self.tokens, i + 3) if payload else i + 2
        for other, kinds in variants.items():
            if other != own and kinds == payload:
                yield self.put("variant", i + 2, i + 2, other)
            elif other != own and not kinds:
                yield self.put("variant", i + 2, end, other)

    def arms(self, i):
        """Neighbouring arms of a match whose patterns bind the same change their patterns."""
        if self.at(i) != "match":
            return
        begin = next(k for k in range(i, self.last) if self.at(k) == "{")
        patterns, k, start = [], begin + 1, begin + 1
        while k < closing(self.tokens, begin):
            if self.at(k) == "=>":
                patterns.append((start, k - 1))
                k = closing(self.tokens, k + 1) if self.at(k + 1) == "{" else k
                start = k + 1
            elif self.at(k) in OPEN:
                k = closing(self.tokens, k)
            elif self.at(k) == ",":
                start = k + 1
            k += 1
        bound = [re.sub(r"^\w+::\w+|^\d+", "", self.span(*p)) for p in patterns]
        for k in range(len(patterns) - 1):
            if bound[k] == bound[k + 1] and self.span(*patterns[k]) != "_":
                yield self.exchange("arms", patterns[k], patterns[k + 1])

    def deletions(self, i):
        if self.at(i - 1) not in "{};" or self.at(i) in ("let", "if", "while", "match", "loop", "for"):
            return
        k = i
        while k < self.last and self.at(k) not in ";}":
            k = closing(self.tokens, k) + 1 if self.at(k) in OPEN else k + 1
        if self.at(k) == ";":
            yield self.put("deletion", i, k, "")


def constants(tokens, i):
    word, t = tokens[i].text, tokens[i]
    number = re.match(r"(\d+)(.*)", word)
    if number and tokens[i - 1].text != ".":
        n = int(number.group(1))
        for other in dict.fromkeys([n + 1, max(n - 1, 0), 0]):
            if other != n:
                yield "constant", t.start, t.end, f"{other}{number.group(2)}"
    elif word in ("true", "false"):
        yield "constant", t.start, t.end, "false" if word == "true" else "true"
    elif word.startswith('b"'):
        yield "constant", t.start, t.end, 'b"' + ("\\t" + word[4:] if word[2] == "\\" else chr(ord(word[2]) + 1) + word[3:])


def mutants_of(text, known):
    """The mutants of a file: the name of the function or constant, and the change."""
    source = Source(text)
    for function in source.functions:
        for mutant in Body(source, function, known).mutants():
            yield function.name, mutant
    for name, first, last in source.consts:
        for i in range(first, last):
            for mutant in constants(source.tokens, i):
                yield name, mutant
