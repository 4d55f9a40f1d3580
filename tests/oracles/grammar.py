"""A slow recogniser of translation units, for comparison with the command.

It follows every derivation of the grammar at once (docs/LANGUAGE.md, ISO/IEC 9899:2024, annex A.3), keeps
the scopes as values, and looks ahead at nothing but `else`. So it shares neither its table nor its choices with the
parser. `fault(text)` gives None for a unit, else the line and column of the first token with which no unit goes on.
The text has no directives, comments or macros.
"""
import re
import sys
from functools import lru_cache

TOKEN = re.compile(
    r"(?P<space>\s+)|(?P<name>[A-Za-z_]\w*)|(?P<number>\d\w*)|(?P<char>'(?:[^'\\]|\\.)*')|(?P<string>\"(?:[^\"\\]|\\.)*\")"
    r"|(?P<punctuator>\.\.\.|<<=|>>=|->|\+\+|--|<<|>>|<=|>=|==|!=|&&|\|\||\*=|/=|%=|\+=|-=|&=|\^=|\|=|::|.)"
)
STORAGE = "extern static auto register constexpr".split()
BASIC = "void char short int long signed unsigned bool _Bool".split()
QUALIFIERS = "const restrict _Owner _View _Opt".split()
LEFT_OUT = (
    "alignas _Alignas _Atomic _BitInt _Complex _Decimal32 _Decimal64 _Decimal128 double float _Generic goto _Imaginary "
    "thread_local _Thread_local union volatile"
).split()
WORDS = set(
    STORAGE + BASIC + QUALIFIERS + LEFT_OUT
    + "static_assert _Static_assert inline _Noreturn typedef typeof typeof_unqual struct enum case default if else".split()
    + "switch while do for break continue return defer sizeof alignof _Alignof true false nullptr".split()
)
ASSIGNMENTS = "= *= /= %= += -= <<= >>= &= ^= |=".split()
LEVELS = [["||"], ["&&"], ["|"], ["^"], ["&"], ["==", "!="], ["<", ">", "<=", ">="], ["<<", ">>"], ["+", "-"], ["*", "/", "%"]]
OPENING = {"(": ")", "[": "]", "{": "}"}


def tokens_of(text):
    """The tokens as (kind, spelling, line, column), and the place behind the last byte."""
    found, line, start, at = [], 1, 0, 0
    while at < len(text):
        match = TOKEN.match(text, at)
        kind, spelling = match.lastgroup, match.group()
        if kind == "string" and found and found[-1][0] == "string":
            pass
        elif kind != "space":
            if kind == "name" and spelling in WORDS:
                kind = "word"
            found.append(("number" if kind == "char" else kind, spelling, line, at - start + 1))
        for newline in re.finditer("\n", spelling):
            line, start = line + 1, at + newline.end()
        at = match.end()
    return found, (line, len(text) - start + 1)


class Recogniser:
    """Scopes are a tuple of (name, is typedef), the latest last; results are sets of positions with what they leave."""

    def __init__(self, tokens):
        self.tokens = tokens
        self.read = 0
        for name in [name for name in dir(self) if name.startswith("p_")]:
            setattr(self, name, lru_cache(maxsize=None)(getattr(self, name)))

    # tokens

    def took(self, at):
        self.read = max(self.read, at + 1)
        return at + 1

    def word(self, at, *spellings):
        if at < len(self.tokens) and self.tokens[at][0] in ("word", "punctuator") and self.tokens[at][1] in spellings:
            return [self.took(at)]
        return []

    def is_identifier(self, at):
        return at < len(self.tokens) and self.tokens[at][0] == "name"

    def is_type(self, at, scopes):
        if not self.is_identifier(at):
            return False
        for name, is_type in reversed(scopes):
            if name == self.tokens[at][1]:
                return is_type
        return False

    def identifier(self, at):
        return [self.took(at)] if self.is_identifier(at) else []

    def name(self, at, scopes):
        return [self.took(at)] if self.is_identifier(at) and not self.is_type(at, scopes) else []

    def kind(self, at, kind):
        return [self.took(at)] if at < len(self.tokens) and self.tokens[at][0] == kind else []

    @staticmethod
    def many(starts, turn):
        """All positions behind any number of turns."""
        seen, waiting = set(starts), list(starts)
        while waiting:
            for later in turn(waiting.pop()):
                if later not in seen:
                    seen.add(later)
                    waiting.append(later)
        return seen

    def after(self, positions, step):
        return {later for at in positions for later in step(at)}

    # attributes

    def p_attr(self, at):
        ends = set()
        for inside in self.after(self.word(at, "["), lambda p: self.word(p, "[")):
            open_brackets = []
            while inside < len(self.tokens):
                spelling = self.tokens[inside][1] if self.tokens[inside][0] == "punctuator" else ""
                if spelling in OPENING:
                    open_brackets.append(OPENING[spelling])
                elif spelling in (")", "]", "}"):
                    if not open_brackets:
                        break
                    if open_brackets.pop() != spelling:
                        return ends
                inside = self.took(inside)
            for closed in self.word(inside, "]"):
                ends |= set(self.word(closed, "]"))
        return ends

    def attrs(self, at):
        return self.many([at], self.p_attr)

    # specifiers: the position, whether a type specifier was there, whether `typedef` was

    def p_specifiers(self, at, scopes, storage):
        def turn(item):
            place, typed, is_typedef = item
            if self.is_type(place, scopes):
                if not typed:
                    yield (self.took(place), True, is_typedef)
                return
            for later in self.word(place, *QUALIFIERS):
                yield (later, typed, is_typedef)
            for later in self.p_type_specifier(place, scopes):
                yield (later, True, is_typedef)
            if storage:
                for later in self.word(place, "inline", "_Noreturn", *STORAGE):
                    yield (later, typed, is_typedef)
                for later in self.word(place, "typedef"):
                    yield (later, typed, True)

        ends = self.many([(at, False, False)], turn) - {(at, False, False)}
        # a typedef name that comes next where no type specifier stands belongs to the list
        return {(place, is_typedef) for place, typed, is_typedef in ends if typed or not self.is_type(place, scopes)}

    def p_type_specifier(self, at, scopes):
        ends = set(self.word(at, *BASIC))
        for behind in self.word(at, "typeof", "typeof_unqual"):
            for inside in self.word(behind, "("):
                for later in self.p_expr(inside, scopes) | {place for place, _ in self.p_typename(inside, scopes)}:
                    ends |= set(self.word(later, ")"))
        for behind in self.word(at, "struct"):
            for head in self.attrs(behind):
                for tag in self.identifier(head):
                    ends |= {tag} | self.p_members(tag, scopes)
                ends |= self.p_members(head, scopes)
        for behind in self.word(at, "enum"):
            for head in self.attrs(behind):
                tags = self.identifier(head)
                ends |= self.after(tags, lambda p: self.with_type(p, scopes))
                ends |= self.after({head, *tags}, lambda p: self.after(self.with_type(p, scopes), lambda q: self.p_enumerators(q, scopes)))
        return ends

    def with_type(self, at, scopes):
        ends = {at}
        for behind in self.word(at, ":"):
            ends |= {place for place, _ in self.p_specifiers(behind, scopes, False)}
        return ends

    def p_members(self, at, scopes):
        inside = self.after(self.word(at, "{"), lambda p: self.p_member(p, scopes))
        return self.after(self.many(inside, lambda p: self.p_member(p, scopes)), lambda p: self.word(p, "}"))

    def p_member(self, at, scopes):
        ends = set(self.p_assertion(at, scopes))
        for head in self.attrs(at):
            for behind, _ in self.p_specifiers(head, scopes, False):
                def declarator(place):
                    return {later for later, _, _ in self.p_declarator(place, scopes, False)}

                places = self.many(declarator(behind), lambda p: self.after(self.word(p, ","), declarator))
                ends |= self.after(places, lambda p: self.word(p, ";"))
        return ends

    def p_enumerators(self, at, scopes):
        def enumerator(place):
            ends = set()
            for named in self.name(place, scopes):
                for behind in self.attrs(named):
                    ends |= {behind} | self.after(self.word(behind, "="), lambda p: self.p_cond(p, scopes))
            return ends

        places = self.after(self.word(at, "{"), enumerator)
        places = self.many(places, lambda p: self.after(self.word(p, ","), enumerator))
        places |= self.after(places, lambda p: self.word(p, ","))
        return self.after(places, lambda p: self.word(p, "}"))

    # declarators: the position, the name, and what stands next to the name: "open" where nothing does yet, the
    # declared parameters, or "shut"

    def p_declarator(self, at, scopes, in_parameter):
        found = set()

        def pointer(item):
            place, _ = item
            for star in self.word(place, "*"):
                for behind in self.attrs(star):
                    for later in self.many([behind], lambda p: self.word(p, *QUALIFIERS)):
                        yield (later, True)

        for start, pointed in self.many([(at, False)], pointer):
            for later, name, near in self.p_direct(start, scopes, in_parameter):
                found.add((later, name, "shut" if pointed and near == "open" else near))
        return found

    def p_direct(self, at, scopes, in_parameter):
        heads = {(behind, self.tokens[at][1], "open") for named in self.identifier(at) for behind in self.attrs(named)}
        if not (in_parameter and self.is_type(at + 1, scopes)):
            for inside in self.word(at, "("):
                for later, name, near in self.p_declarator(inside, scopes, in_parameter):
                    heads |= {(closed, name, near) for closed in self.word(later, ")")}

        def turn(item):
            place, name, near = item
            for later, beside in self.p_suffix(place, scopes):
                yield (later, name, beside if near == "open" else near)

        return self.many(heads, turn)

    def p_suffix(self, at, scopes):
        """The position, and the parameters or "shut" for an array."""
        ends = set()
        for inside in self.word(at, "["):
            for later in {inside} | self.p_cond(inside, scopes):
                ends |= {(place, "shut") for closed in self.word(later, "]") for place in self.attrs(closed)}
        for inside in self.word(at, "("):
            for later, declared in {(inside, scopes)} | self.p_parameters(inside, scopes):
                ends |= {(place, declared[len(scopes):]) for closed in self.word(later, ")") for place in self.attrs(closed)}
        return ends

    def p_parameters(self, at, scopes):
        def turn(item):
            place, declared = item
            for behind in self.word(place, ","):
                yield from self.p_parameter(behind, declared)

        ends = self.many(self.p_parameter(at, scopes), turn)
        return ends | {(last, declared) for place, declared in ends for comma in self.word(place, ",") for last in self.word(comma, "...")}

    def p_parameter(self, at, scopes):
        ends = set()
        for head in self.attrs(at):
            for behind, is_typedef in self.p_specifiers(head, scopes, True):
                ends.add((behind, scopes))
                for later, name, _ in self.p_declarator(behind, scopes, True):
                    ends.add((later, scopes + ((name, is_typedef),)))
                ends |= {(later, scopes) for later, _ in self.p_abstract(behind, scopes)}
        return ends

    def p_typename(self, at, scopes):
        """The position, and the parameters next to the missing name, or None."""
        ends = set()
        for behind, _ in self.p_specifiers(at, scopes, False):
            ends |= {(behind, None)} | self.p_abstract(behind, scopes)
        return ends

    def p_abstract(self, at, scopes):
        ends = set()
        for star in self.word(at, "*"):
            for behind in self.attrs(star):
                for later in self.many([behind], lambda p: self.word(p, *QUALIFIERS)):
                    ends |= {(later, None)} | self.p_abstract(later, scopes)
        heads = {(later, None if beside == "shut" else beside) for later, beside in self.p_suffix(at, scopes)}
        for inside in self.word(at, "("):
            for later, near in self.p_abstract(inside, scopes):
                heads |= {(closed, near) for closed in self.word(later, ")")}
        return ends | self.many(heads, lambda item: {(later, item[1]) for later, _ in self.p_suffix(item[0], scopes)})

    # declarations: the position and the scopes

    def p_assertion(self, at, scopes):
        places = self.after(self.word(at, "static_assert", "_Static_assert"), lambda p: self.word(p, "("))
        places = self.after(places, lambda p: self.p_cond(p, scopes))
        places |= self.after(self.after(places, lambda p: self.word(p, ",")), lambda p: self.kind(p, "string"))
        return self.after(self.after(places, lambda p: self.word(p, ")")), lambda p: self.word(p, ";"))

    def p_declaration(self, at, scopes):
        ends = {(later, scopes) for later in self.p_assertion(at, scopes)}
        for first in self.p_attr(at):
            ends |= {(later, scopes) for place in self.attrs(first) for later in self.word(place, ";")}
        for head in self.attrs(at):
            for behind, is_typedef in self.p_specifiers(head, scopes, True):
                def initialised(place, seen):
                    for later, name, _ in self.p_declarator(place, seen, False):
                        declared = seen + ((name, is_typedef),)
                        yield (later, declared)
                        for equals in self.word(later, "="):
                            for last in self.p_initializer(equals, declared):
                                yield (last, declared)

                def turn(item):
                    for comma in self.word(item[0], ","):
                        yield from initialised(comma, item[1])

                places = self.many(set(initialised(behind, scopes)), turn) | {(behind, scopes)}
                ends |= {(later, declared) for place, declared in places for later in self.word(place, ";")}
        return ends

    def p_function(self, at, scopes):
        ends = set()
        for head in self.attrs(at):
            for behind, is_typedef in self.p_specifiers(head, scopes, True):
                for later, name, near in self.p_declarator(behind, scopes, False):
                    declared = scopes + ((name, is_typedef),)
                    parameters = () if near in ("open", "shut") else near
                    ends |= {(last, declared) for last in self.p_block(later, declared + parameters)}
        return ends

    def p_initializer(self, at, scopes):
        return self.p_assign(at, scopes) | self.p_braces(at, scopes)

    def p_braces(self, at, scopes):
        ends = set()
        for inside in self.word(at, "{"):
            places = self.many(self.p_item(inside, scopes), lambda p: self.after(self.word(p, ","), lambda q: self.p_item(q, scopes)))
            places |= self.after(places, lambda p: self.word(p, ","))
            ends |= self.after(places | {inside}, lambda p: self.word(p, "}"))
        return ends

    def p_item(self, at, scopes):
        def designator(place):
            inside = self.after(self.word(place, "["), lambda p: self.p_cond(p, scopes))
            return self.after(inside, lambda p: self.word(p, "]")) | self.after(self.word(place, "."), self.identifier)

        designated = self.after(self.many(designator(at), designator), lambda p: self.word(p, "="))
        return self.after(designated | {at}, lambda p: self.p_initializer(p, scopes))

    # statements

    def p_block(self, at, scopes):
        def turn(item):
            place, seen = item
            yield from self.p_declaration(place, seen)
            for later in self.p_label(place, seen) | self.p_statement(place, seen):
                yield (later, seen)

        ends = set()
        for inside in self.word(at, "{"):
            for place, _ in self.many([(inside, scopes)], turn):
                ends |= set(self.word(place, "}"))
        return ends

    def p_label(self, at, scopes):
        places = set()
        for head in self.attrs(at):
            places |= self.after(self.word(head, "case"), lambda p: self.p_cond(p, scopes)) | set(self.word(head, "default"))
        return self.after(places, lambda p: self.word(p, ":"))

    def in_parentheses(self, at, scopes):
        places = self.after(self.word(at, "("), lambda p: self.p_expr(p, scopes))
        return self.after(places, lambda p: self.word(p, ")"))

    def optional_expr(self, at, scopes):
        return {at} | self.p_expr(at, scopes)

    def p_statement(self, at, scopes):
        ends = set()
        for head in self.attrs(at):
            ends |= self.p_block(head, scopes)
            ends |= self.after(self.optional_expr(head, scopes), lambda p: self.word(p, ";"))
            ends |= self.after(self.word(head, "switch", "while"), lambda p: self.after(self.in_parentheses(p, scopes), lambda q: self.p_statement(q, scopes)))
            ends |= self.after(self.word(head, "break", "continue"), lambda p: self.word(p, ";"))
            ends |= self.after(self.after(self.word(head, "return"), lambda p: self.optional_expr(p, scopes)), lambda p: self.word(p, ";"))
            ends |= self.after(self.word(head, "defer"), lambda p: self.p_statement(p, scopes))
            bodies = self.after(self.word(head, "do"), lambda p: self.p_statement(p, scopes))
            loops = self.after(self.after(bodies, lambda p: self.word(p, "while")), lambda p: self.in_parentheses(p, scopes))
            ends |= self.after(loops, lambda p: self.word(p, ";"))
            ends |= self.conditional(head, scopes) | self.loop(head, scopes)
        return ends

    def conditional(self, at, scopes):
        ends = set()
        for inside in self.after(self.word(at, "if"), lambda p: self.word(p, "(")):
            for behind, seen in {(inside, scopes)} | self.p_declaration(inside, scopes):
                for closed in self.after(self.p_expr(behind, seen), lambda p: self.word(p, ")")):
                    for later in self.p_statement(closed, seen):
                        otherwise = self.word(later, "else")
                        ends |= self.after(otherwise, lambda p: self.p_statement(p, seen)) if otherwise else {later}
        return ends

    def loop(self, at, scopes):
        ends = set()
        for inside in self.after(self.word(at, "for"), lambda p: self.word(p, "(")):
            starts = {(later, scopes) for place in self.optional_expr(inside, scopes) for later in self.word(place, ";")}
            for behind, seen in starts | self.p_declaration(inside, scopes):
                places = self.after(self.optional_expr(behind, seen), lambda p: self.word(p, ";"))
                places = self.after(self.after(places, lambda p: self.optional_expr(p, seen)), lambda p: self.word(p, ")"))
                ends |= self.after(places, lambda p: self.p_statement(p, seen))
        return ends

    # expressions

    def p_expr(self, at, scopes):
        return self.many(self.p_assign(at, scopes), lambda p: self.after(self.word(p, ","), lambda q: self.p_assign(q, scopes)))

    def p_assign(self, at, scopes):
        left = self.p_cond(at, scopes)
        return left | self.after(self.after(left, lambda p: self.word(p, *ASSIGNMENTS)), lambda p: self.p_assign(p, scopes))

    def p_cond(self, at, scopes):
        ends = self.p_level(at, scopes, 0)
        middle = self.after(self.after(ends, lambda p: self.word(p, "?")), lambda p: self.p_expr(p, scopes))
        return ends | self.after(self.after(middle, lambda p: self.word(p, ":")), lambda p: self.p_cond(p, scopes))

    def p_level(self, at, scopes, level):
        if level == len(LEVELS):
            return self.p_cast(at, scopes)
        first = self.p_level(at, scopes, level + 1)
        return self.many(first, lambda p: self.after(self.word(p, *LEVELS[level]), lambda q: self.p_level(q, scopes, level + 1)))

    def typename_in_parentheses(self, at, scopes):
        return {(closed, near) for inside in self.word(at, "(") for later, near in self.p_typename(inside, scopes) for closed in self.word(later, ")")}

    def p_cast(self, at, scopes):
        casts = {place for place, _ in self.typename_in_parentheses(at, scopes)}
        return self.p_unary(at, scopes) | self.after(casts, lambda p: self.p_cast(p, scopes))

    def p_unary(self, at, scopes):
        ends = self.p_postfix(at, scopes) | self.after(self.word(at, "++", "--"), lambda p: self.p_unary(p, scopes))
        ends |= self.after(self.word(at, "&", "*", "+", "-", "~", "!"), lambda p: self.p_cast(p, scopes))
        for behind in self.word(at, "sizeof"):
            ends |= self.p_unary(behind, scopes) | {place for place, _ in self.typename_in_parentheses(behind, scopes)}
        for behind in self.word(at, "alignof", "_Alignof"):
            ends |= {place for place, _ in self.typename_in_parentheses(behind, scopes)}
        return ends

    def p_postfix(self, at, scopes):
        def turn(place):
            ends = self.after(self.after(self.word(place, "["), lambda p: self.p_expr(p, scopes)), lambda p: self.word(p, "]"))
            for inside in self.word(place, "("):
                places = self.many(self.p_assign(inside, scopes), lambda p: self.after(self.word(p, ","), lambda q: self.p_assign(q, scopes)))
                ends |= self.after(places | {inside}, lambda p: self.word(p, ")"))
            return ends | self.after(self.word(place, ".", "->"), self.identifier) | set(self.word(place, "++", "--"))

        return self.many(self.p_primary(at, scopes), turn)

    def p_primary(self, at, scopes):
        ends = {*self.name(at, scopes), *self.kind(at, "number"), *self.kind(at, "string"), *self.word(at, "true", "false", "nullptr")}
        ends |= self.after(self.after(self.word(at, "("), lambda p: self.p_expr(p, scopes)), lambda p: self.word(p, ")"))
        for place, near in self.typename_in_parentheses(at, scopes):
            ends |= self.p_braces(place, scopes) if near is None else self.p_block(place, scopes + near)
        return ends

    def unit(self):
        def turn(item):
            return self.p_function(*item) | self.p_declaration(*item)

        ends = self.many(turn((0, ())), turn)
        return any(place == len(self.tokens) for place, _ in ends)


def fault(text):
    """None where the text is a unit, else the line and column of the first faulty token, or of the end."""
    tokens, end = tokens_of(text)
    sys.setrecursionlimit(20000)
    recogniser = Recogniser(tokens)
    if recogniser.unit():
        return None
    return tokens[recogniser.read][2:] if recogniser.read < len(tokens) else end
