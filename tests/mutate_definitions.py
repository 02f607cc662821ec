"""One-place changes of the clauses of definitions: tests, numbers, cells, conjuncts, the order of arguments, of clauses and of checks."""
import re

# A name, each field behind it with its dot, and a bound variable with its dot are tokens: of `λ s. s.used` four.
TOKEN = re.compile(r'--[^\n]*|"[^"]*"|[(){};,]|[^\s(){};,".]+\.(?=\s)|\.?[^\s(){};,".]+|\.')
EXCHANGED = {"eqb": ["leb", "ltb"], "leb": ["ltb", "eqb"], "ltb": ["leb", "eqb"], "&&": ["||"], "||": ["&&"], "true": ["false"], "false": ["true"],
             "+": ["*", "-"], "*": ["+"], "-": ["+"], "/": ["%"], "%": ["/"], "≡": ["≢"], "≢": ["≡"], "<": ["≤"], "≤": ["<"], "×": ["⊎"]}
INFIX = {":", "&&", "||", "+", "*", "-", "/", "%", "≡", "≢", "<", "≤", "×", "⊎", "∷", "++", "→", "=", "in", "↔", "then", "|"}
IMPORTS = {"std.specs.Prelude": ["Option", "None", "Some", "eqb", "ltb", "leb", "Bool", "true", "false", "not", "◌&&◌", "◌||◌", "cond", "◌+◌", "◌-◌", "◌*◌"],
           "words.specs.Labels": ["good", "refuse_if", "and_then", "collect"]}
ASKED = {"cond": ["test", "A", "A"], "eqb": ["one", "other"], "get_or": ["list", "n", "n"], "Memᴰ": ["A", "list"], "map": ["f", "list"], "every": ["f", "list"],
         "flat_map": ["f", "list"], "keep_if": ["f", "list"], "refuse_if": ["test", "n", "rest"], "and_then": ["one", "other"], "set": ["list", "n", "n"],
         "put": ["list", "n", "list"]}
DECLARED = re.compile(r"^( *)(?:(?:abbrev|unfoldable) )(?:pub )?(\S+) :(.*)$")

# Changes that no rule below makes, as the text of a clause before and after: checks that change places though they do not stand in one nest, a bound left out.
BY_HAND = [
    ("room_with", "min L.limit (length l / size)", "length l / size"),
    ("side_for_with", "(refuse_if (not (well_formed_up_to L.limit l.m2)) 3\n      (refuse_if (not (ignored_ok l.ignored)) 18\n      (side_of (operand1 s l) (operand2 s l))))",
     "(and_then (refuse_if (not (ignored_ok l.ignored)) 18 (side_of (operand1 s l) (operand2 s l))) "
     "(λ side. refuse_if (not (well_formed_up_to L.limit l.m2)) 3 (good side)))"),
    ("side_of", "(refuse_if (is_set B.sigma && not (in_order B)) 6\n    (side_by (eqb A.mark 1) (eqb B.mark 1) (in_order A) (in_order B)))",
     "(and_then (side_by (eqb A.mark 1) (eqb B.mark 1) (in_order A) (in_order B)) (λ side. refuse_if (is_set B.sigma && not (in_order B)) 6 (good side)))"),
    ("entered_with",
     "and_then (side_for_with s.settings l) (λ side. refuse_if (not (session_ok_with l s m side)) 8 (good (composition_of s.settings l side)))",
     "refuse_if (not (fits_with L (store_of s m))) 8 "
     "(and_then (side_for_with s.settings l) (λ side. refuse_if (not (session_ok_with l s m side)) 8 (good (composition_of s.settings l side))))"),
    ("entered_at_with", "and_then (entered_with l s m) (λ c. refuse_if (leb s.used.states n) 9 (good c))", "refuse_if (leb s.used.states n) 9 (entered_with l s m)"),
    ("begun_with", "begun_with m None = good (cleared m)", "begun_with m None = refuse_if (eqb (state_room_with L m) 0) 13 (good (cleared m))"),
    ("expand_with", "and_then (entered_at_with L l s m n) (λ c. expand_by_with c s m n (eqb (expanded_with L m.states n) 1))",
     "and_then (entered_with L l s m) (λ c. and_then (expand_by_with c s m n (eqb (expanded_with L m.states n) 1)) (λ d. refuse_if (leb s.used.states n) 9 (good d)))"),
    ("final_weight_with", "and_then (entered_at_with L l s m n) (λ c. and_then (final_at c (L.triple_at m.states n)) (λ w. good (unchanged s m w)))",
     "and_then (entered_with L l s m) (λ c. and_then (final_at c (L.triple_at m.states n)) (λ w. refuse_if (leb s.used.states n) 9 (good (unchanged s m w))))"),
    ("store_steps_with", "and_then st (λ s. and_then (store_step_with d (next_for d (non_empty others)) s) (λ e. store_steps_with e others))",
     "refuse_if (leb (tr_room_with L d.memory) d.used.trs) 13 "
     "(and_then st (λ s. and_then (store_step_with d (next_for d (non_empty others)) s) (λ e. store_steps_with e others)))"),
    ("store_steps_with", "and_then st (λ s. and_then (store_step_with d (next_for d (non_empty others)) s) (λ e. store_steps_with e others))",
     "and_then (collect (st ∷ others)) (λ l. and_then st (λ s. and_then (store_step_with d (next_for d (non_empty others)) s) (λ e. store_steps_with e others)))"),
]


class Token:
    def __init__(self, match, base):
        self.text, self.start, self.end = match.group(), match.start() + base, match.end() + base


def tokens_of(text, base=0):
    return [Token(m, base) for m in TOKEN.finditer(text) if not m.group().startswith("--")]


def closing(tokens, i):
    depth = 0
    for j in range(i, len(tokens)):
        depth += (tokens[j].text in "({") - (tokens[j].text in ")}")
        if depth == 0:
            return j
    return len(tokens) - 1


def with_imports(text):
    """The names that a change may bring in."""
    for module, names in IMPORTS.items():
        found = re.search(r"^use \S*" + re.escape(module) + r"\.\{([^}]*)\}", text, flags=re.M)
        if found:
            own = found.group(1).split(", ")
            text = text[:found.start(1)] + ", ".join(own + [n for n in names if n not in own]) + text[found.end(1):]
    return text


class Known:
    """Constructors and fields of one type with their siblings, and the types that functions ask for, from all definitions."""

    def __init__(self, texts):
        self.siblings, self.asked = {}, {}
        for text in texts:
            self.asked.update((said.group(2), parts(said.group(3))) for said in map(DECLARED.match, text.split("\n")) if said)
            for block in re.findall(r"^pub (?:data|record) .*\n(?:  .*\n)+", text, flags=re.M):
                self.block(block.split("\n")[1:], "." if block.startswith("pub record") else "")
        self.asked.update(ASKED)

    def block(self, lines, mark):
        kinds = {}
        for line in lines:
            names, _, kind = line.partition(" : ")
            if not names.strip().startswith("--"):
                kinds.setdefault(kind.strip(), []).extend(mark + n for n in names.split() if n != "pub")
        for names in kinds.values():
            for name in names:
                k = names.index(name)
                near = [names[(k + d) % len(names)] for d in (1, -1)] if len(names) > 4 else names
                known = self.siblings.setdefault(name, [])
                known.extend(n for n in near if n != name and n not in known)


class Clause:
    """The mutants of one clause: `left` are the tokens of its patterns, `scope` their variables with their types, `tokens` what is right of the equals sign."""

    def __init__(self, text, left, scope, tokens, known):
        self.text, self.left, self.scope, self.tokens, self.known = text, {t.text for t in left}, scope, tokens, known

    def fits(self, other):
        """Each name of this clause's patterns that its right side uses is in the other's patterns too."""
        return {t.text for t in self.tokens} & self.left <= other.left

    def at(self, i):
        return self.tokens[i].text if 0 <= i < len(self.tokens) else ""

    def put(self, kind, first, last, new):
        return kind, self.tokens[first].start, self.tokens[last].end, new

    def span(self, first, last):
        return self.text[self.tokens[first].start:self.tokens[last].end]

    def exchange(self, kind, one, two):
        between = self.text[self.tokens[one[1]].end:self.tokens[two[0]].start]
        return self.put(kind, one[0], two[1], self.span(*two) + between + self.span(*one))

    def mutants(self):
        for i in range(len(self.tokens)):
            for rule in (self.words, self.numbers, self.siblings, self.variables, self.conjuncts, self.arguments, self.fields, self.order):
                yield from rule(i)
        yield from self.cells()

    def words(self, i):
        word = self.at(i)
        if word == "not":
            yield self.put("test", i, i, "")
        kind = "connective" if word in ("&&", "||", "×") else "constant" if word in ("true", "false") else "test"
        yield from (self.put(kind, i, i, other) for other in EXCHANGED.get(word, []))

    def numbers(self, i):
        if self.at(i).isdigit() and self.at(i - 1) not in ("Type", "{", "."):
            n = int(self.at(i))
            yield from (self.put("constant", i, i, str(k)) for k in (n + 1, n - 1) if k >= 0)

    def siblings(self, i):
        yield from (self.put("sibling", i, i, other) for other in self.known.siblings.get(self.at(i), []) if self.at(i + 1) != "=")

    def variables(self, i):
        kind = self.scope.get(self.at(i))
        same = [v for v, k in self.scope.items() if k == kind]
        if kind and self.at(i + 1) != "=" and len(same) > 1:
            yield self.put("operand", i, i, same[(same.index(self.at(i)) + 1) % len(same)])

    def operand(self, i, step):
        """The far end of what an infix at i stands beside."""
        k = i + step
        while 0 <= k < len(self.tokens):
            if self.at(k) in ("({" if step < 0 else ")}") or self.at(k) in INFIX and self.at(k) != "∷" or self.at(k) in (";", ",") or self.at(k).endswith(".") and step < 0:
                return k - step
            k = (closing(self.tokens, k) if step > 0 else self.opening(k)) + step
        return k - step

    def opening(self, k):
        return next(j for j in range(k, -1, -1) if closing(self.tokens, j) == k) if self.at(k) in ")}" else k

    def conjuncts(self, i):
        if self.at(i) in ("&&", "||", "×") and 0 < i < len(self.tokens) - 1:
            first, last = self.operand(i, -1), self.operand(i, 1)
            yield self.put("conjunct dropped", first, i, "")
            yield self.put("conjunct dropped", i, last, "")

    def atom(self, i):
        """The last token of the atom at i: a name with its projections, or what stands in brackets."""
        end = closing(self.tokens, i)
        while self.at(end + 1).startswith(".") and len(self.at(end + 1)) > 1:
            end += 1
        return end

    def atoms(self, i):
        found = []
        while i < len(self.tokens) and self.at(i) not in INFIX and self.at(i) not in ")};," and self.at(i) not in ("λ", "let"):
            found.append((i, self.atom(i)))
            i = found[-1][1] + 1
        return found

    def arguments(self, i):
        """Neighbouring arguments of the application that begins at i change places."""
        if i and self.at(i - 1) not in INFIX and self.at(i - 1) not in ("(", ";") and not self.at(i - 1).endswith("."):
            return
        found, asked = self.atoms(i)[1:], self.known.asked.get(self.at(i), [])
        for k, (one, two) in enumerate(zip(found, found[1:])):
            if self.span(*one) != self.span(*two) and len(set(asked[k:k + 2])) < 2:
                yield self.exchange("argument order", one, two)

    def fields(self, i):
        """Neighbouring fields of a record change their values."""
        if self.at(i) != "record" or self.at(i + 1) != "{":
            return
        end, k, values = closing(self.tokens, i + 1), i + 2, []
        while k < end and self.at(k + 1) == "=":
            last = k + 2
            while last < end and self.at(last) != ";":
                last = closing(self.tokens, last) + 1
            values.append((k + 2, last - 1))
            k = last + 1
        for one, two in zip(values, values[1:]):
            if self.span(*one) != self.span(*two):
                yield self.exchange("argument order", one, two)

    def order(self, i):
        """Two checks, one right after the other, change places."""
        if self.at(i) == "refuse_if":
            own = self.atoms(i)[1:]
            if len(own) > 2 and self.at(own[2][0]) == "(" and self.at(own[2][0] + 1) == "refuse_if":
                inner = self.atoms(own[2][0] + 1)[1:]
                yield self.exchange("order of checks", (own[0][0], own[1][1]), (inner[0][0], inner[1][1]))

    def cells(self):
        """A cell of a table is kept where it drops, or drops where it keeps."""
        if [t.text for t in self.tokens] == ["None"]:
            yield from (self.put("cell", 0, 0, other) for other in ("Some 0", "Some 1"))
        elif self.at(0) == "Some":
            yield self.put("cell", 0, len(self.tokens) - 1, "None")


def parts(signature):
    """The types of a function's arguments."""
    depth, found, word = 0, [], ""
    for c in signature.strip():
        depth += (c in "({") - (c in ")}")
        if c == "→" and depth == 0:
            found.append(word.strip())
            word = ""
        else:
            word += c
    return [p for p in found if not p.startswith("{")]


def patterns(tokens):
    found, i = [], 0
    while i < len(tokens):
        end = closing(tokens, i)
        found.append(tokens[i].text if i == end else "")
        i = end + 1
    return found


def clauses_of(text):
    """Each clause: the name, its patterns' variables with their types, and the tokens right of the equals sign."""
    place, declared = 0, {}
    lines = text.split("\n")
    starts = [place := 0] + [place := place + len(line) + 1 for line in lines]
    i = 0
    while i < len(lines):
        said = DECLARED.match(lines[i])
        if said:
            declared[said.group(2)] = said.group(1), parts(said.group(3))
        head = re.match(r"^( *)(\S+)", lines[i])
        end = i + 1
        if head and declared.get(head.group(2), (None,))[0] == head.group(1):
            again = head.group(1) + head.group(2)
            while end < len(lines) and lines[end].strip() and not re.match(re.escape(again) + r"(\s|$)", lines[end]) and not lines[end].strip().startswith("--"):
                end += 1
            tokens = tokens_of(text[starts[i]:starts[end] - 1], starts[i])
            at = next((k for k, t in enumerate(tokens) if t.text == "="), None)
            if at:
                scope = {v: kind for v, kind in zip(patterns(tokens[1:at]), declared[head.group(2)][1]) if re.match(r"^[^\W\d]\w*$", v)}
                yield head.group(2), tokens[1:at], scope, tokens[at + 1:]
        i = end


def statements_of(text):
    """The fields of records that are claims."""
    for m in re.finditer(r"^  +pub (\S+) :((?:.*[≡<≤≢×].*)(?:\n {6}.*)*)$", text, flags=re.M):
        yield m.group(1), [], {}, tokens_of(m.group(2), m.start(2))


def exchanged(one, two):
    """Two neighbouring clauses change their right sides."""
    between = one.text[one.tokens[-1].end:two.tokens[0].start]
    return "clauses", one.tokens[0].start, two.tokens[-1].end, two.span(0, -1) + between + one.span(0, -1)


def mutants_of(text, known):
    previous = None
    for name, left, scope, tokens in [*clauses_of(text), *statements_of(text)]:
        clause = Clause(text, left, scope, tokens, known)
        for mutant in clause.mutants():
            yield name, mutant
        if previous and previous[0] == name and left and clause.span(0, -1) != previous[1].span(0, -1) and clause.fits(previous[1]) and previous[1].fits(clause):
            yield name, exchanged(previous[1], clause)
        previous = name, clause
    for name, old, new in BY_HAND:
        if old in text and f"pub {name} :" in text:
            yield name, ("by hand", text.index(old), text.index(old) + len(old), new)
