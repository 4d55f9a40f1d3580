#!/usr/bin/env python3
"""Trees of units of one line as the definitions have them, and laws that compute what checking answers of each.

    tests/oracles/trees.py            writes the crate checking_units from tests/rows/checking.toml
    tests/oracles/trees.py 'int x;'   prints the tree of one unit
"""
import pathlib
import re
import sys
import tomllib

TOKEN = re.compile(
    r"""\s+ | (?P<name>[A-Za-z_]\w*) | (?P<number>\d[\w']*) | (?P<text>"(?:\\.|[^"\\])*") | (?P<char>'(?:\\.|[^'\\])*')
    | (?P<sign>\.\.\.|<<=|>>=|->|\+\+|--|<<|>>|<=|>=|==|!=|&&|\|\||[-*/%+&^|]=|[][(){}.&*+~!/%<>^|?:;=,-])""",
    re.VERBOSE,
)
STORAGE = {"typedef": "Typedef", "extern": "Extern", "static": "Static", "auto": "Auto", "register": "Register", "constexpr": "Constexpr"}
FUNCTION = {"inline": "Inline", "_Noreturn": "Noreturn"}
TYPE = {"void": "Void", "char": "Char", "short": "Short", "int": "Int", "long": "Long", "signed": "Signed", "unsigned": "Unsigned", "bool": "Bool", "_Bool": "Bool"}
QUALIFIER = {"const": "Const", "restrict": "Restrict", "_Owner": "Owner", "_View": "View", "_Opt": "Opt"}
TYPEOF = {"typeof": "Typeof", "typeof_unqual": "TypeofUnqual"}
PREFIX = {"&": "Address", "*": "Indirection", "+": "Plus", "-": "Minus", "~": "Complement", "!": "Not"}
BINARY = [
    {"||": "Or"}, {"&&": "And"}, {"|": "BitOr"}, {"^": "BitXor"}, {"&": "BitAnd"}, {"==": "Equal", "!=": "NotEqual"},
    {"<": "Less", ">": "Greater", "<=": "LessEqual", ">=": "GreaterEqual"}, {"<<": "ShiftLeft", ">>": "ShiftRight"},
    {"+": "Add", "-": "Sub"}, {"*": "Mul", "/": "Div", "%": "Rem"},
]
COMPOUND = {sign + "=": op for level in BINARY[2:] for sign, op in level.items() if sign not in ("==", "!=", "<", ">", "<=", ">=")}
WORDS = {
    *STORAGE, *FUNCTION, *TYPE, *QUALIFIER, *TYPEOF, "struct", "enum", "static_assert", "_Static_assert", "sizeof", "alignof", "_Alignof", "true",
    "false", "nullptr", "if", "else", "switch", "case", "default", "while", "do", "for", "break", "continue", "return", "defer",
}
ESCAPES = {"n": 10, "t": 9, "a": 7, "b": 8, "f": 12, "r": 13, "v": 11, "0": 0}
WIDTHS = [("Int", 31), ("Unsigned", 32), ("Long", 63), ("UnsignedLong", 64)]


def tokens_of(text):
    """The tokens of a line: kind, spelling, place."""
    found, at = [], 0
    while at < len(text):
        match = TOKEN.match(text, at)
        if match is None:
            raise ValueError(f"no token at {at + 1}: {text}")
        if match.lastgroup:
            found.append((match.lastgroup, match.group(), f"(at {at + 1} {len(found)})"))
        at = match.end()
    return found


def bytes_of(spelling):
    found, body = [], spelling[1:-1]
    for part in re.findall(r"\\x[0-9a-fA-F]+|\\[0-7]{1,3}|\\.|.", body):
        if part[0] != "\\":
            found.extend(part.encode())
        elif part[1] == "x":
            found.append(int(part[2:], 16))
        elif part[1] in "01234567":
            found.append(int(part[1:], 8))
        else:
            found.append(ESCAPES.get(part[1], ord(part[1])))
    return found


def text_list(numbers):
    if all(32 <= n < 127 and n not in b'"\\' for n in numbers):
        return f'(codes "{bytes(numbers).decode()}")'
    return "(" + "".join(f"{n} ∷ " for n in numbers) + "[])"


def integer(value):
    return f"(pos {value})" if value >= 0 else f"(negsuc {-value - 1})"


def constant(spelling):
    """The value and type of an integer constant."""
    digits = spelling.replace("'", "").lower()
    suffix = re.search(r"[ul]*$", digits).group()
    digits = digits[: len(digits) - len(suffix)]
    base = 16 if digits.startswith("0x") else 2 if digits.startswith("0b") else 8 if digits.startswith("0") and len(digits) > 1 else 10
    value = int(digits, base)
    for basic, width in WIDTHS:
        is_unsigned = basic.startswith("Unsigned")
        if value >= 2**width or "u" in suffix and not is_unsigned or "l" in suffix and "Long" not in basic:
            continue
        if is_unsigned and "u" not in suffix and base == 10:
            continue
        return value, basic + ("Long" if "ll" in suffix else "")
    raise ValueError(spelling)


class Parser:
    """A unit's tree as a term of the definitions."""

    def __init__(self, text):
        self.tokens = [*tokens_of(text), ("end", "", "")]
        self.k = 0
        self.scopes = [{}]

    # ---- tokens

    def sees(self, *spellings, ahead=0):
        kind, spelling, _ = self.tokens[min(self.k + ahead, len(self.tokens) - 1)]
        return kind not in ("text", "char") and spelling in spellings

    def take(self, *spellings):
        kind, spelling, place = self.tokens[self.k]
        if spellings and spelling not in spellings:
            raise ValueError(f"{spellings} wanted at {place}, not {spelling}")
        self.k += 1
        return spelling, place

    def place(self):
        return self.tokens[self.k][2]

    def last(self):
        return self.tokens[self.k - 1][2]

    def name(self):
        kind, spelling, place = self.tokens[self.k]
        if kind != "name" or spelling in WORDS:
            raise ValueError(f"a name wanted at {place}, not {spelling}")
        self.k += 1
        return spelling, f'(name (codes "{spelling}") {place})'

    def attributes(self):
        while self.sees("[") and self.sees("[", ahead=1):
            depth = 0
            while True:
                spelling, _ = self.take()
                depth += (spelling == "[") - (spelling == "]")
                if depth == 0:
                    break

    def is_typedef(self, ahead=0):
        kind, spelling, _ = self.tokens[min(self.k + ahead, len(self.tokens) - 1)]
        if kind != "name":
            return False
        return next((scope[spelling] for scope in reversed(self.scopes) if spelling in scope), False)

    def begins_type(self, ahead=0):
        return self.sees(*TYPE, *QUALIFIER, *TYPEOF, "struct", "enum", ahead=ahead) or self.is_typedef(ahead)

    def begins_declaration(self):
        return (
            self.begins_type() or self.sees(*STORAGE, *FUNCTION, "static_assert", "_Static_assert")
            or self.sees("[") and self.sees("[", ahead=1)
        )

    # ---- declarations

    def unit(self):
        found = []
        while self.tokens[self.k][0] != "end":
            found.append(self.external())
        return "(" + " ∷ ".join([*found, "[]"]) + ")"

    def external(self):
        start = self.k
        self.attributes()
        if self.sees("static_assert", "_Static_assert", ";"):
            self.k = start
            return f"syntax.ExternalDeclaration {self.declaration()}"
        specs, is_typedef = self.specs()
        if not self.sees(";"):
            self.scopes.append({})
            declarator, name, entries = self.declarator()
            if self.sees("{"):
                self.scopes[-2][name] = False
                self.scopes[-1].update(entries or {})
                body = self.block(own_scope=False)
                self.scopes.pop()
                return f"syntax.FunctionDefinition {specs} {declarator} {body}"
            self.scopes.pop()
        self.k = start
        return f"syntax.ExternalDeclaration {self.declaration()}"

    def declaration(self):
        if self.sees("static_assert", "_Static_assert"):
            return f"(syntax.AssertDeclaration {self.assertion()})"
        self.attributes()
        if self.sees(";"):
            self.take()
            return "syntax.AttributeDeclaration"
        specs, is_typedef = self.specs()
        found = []
        while not self.sees(";"):
            declarator, name, _ = self.declarator()
            self.scopes[-1][name] = is_typedef
            value = "syntax.no_initializer"
            if self.sees("="):
                self.take()
                value = f"(syntax.an_initializer {self.initializer()})"
            found.append(f"syntax.init_declarator {declarator} {value}")
            if not self.sees(";"):
                self.take(",")
        self.take(";")
        return f"(syntax.SimpleDeclaration {specs} (declared {as_list(found)}))"

    def assertion(self):
        _, place = self.take()
        self.take("(")
        condition = self.cond()
        message = "None"
        if self.sees(","):
            self.take()
            message = f"(Some {text_list(bytes_of(self.take()[0]))})"
        self.take(")")
        self.take(";")
        return f"(syntax.asserted {condition} {message} {place})"

    def specs(self, is_fixed=False):
        """The specifiers, and whether they declare types; those of a fixed type leave the braces to the enumeration."""
        found, has_type, is_typedef = [], False, False
        while True:
            kind, spelling, place = self.tokens[self.k]
            if kind != "name":
                break
            if spelling in STORAGE:
                self.take()
                is_typedef |= spelling == "typedef"
                found.append(f"syntax.StorageSpec storage.{STORAGE[spelling]} {place}")
            elif spelling in FUNCTION:
                self.take()
                found.append(f"syntax.FunctionSpec function.{FUNCTION[spelling]} {place}")
            elif spelling in TYPE:
                self.take()
                has_type = True
                found.append(f"syntax.TypeSpec type.{TYPE[spelling]} {place}")
            elif spelling in QUALIFIER:
                found.append(f"syntax.QualifierSpec {self.qualifier()}")
            elif spelling == "struct":
                has_type = True
                found.append(self.struct(is_fixed))
            elif spelling == "enum":
                has_type = True
                found.append(self.enum(is_fixed))
            elif spelling in TYPEOF:
                has_type = True
                found.append(self.typeof())
            elif self.is_typedef() and not has_type:
                has_type = True
                found.append(f"syntax.TypedefName {self.name()[1]}")
            else:
                break
        if not found:
            raise ValueError(f"specifiers wanted at {self.place()}")
        return f"(specs {as_list(found)})", is_typedef

    def qualifier(self):
        spelling, place = self.take()
        return f"(qualifier qual.{QUALIFIER[spelling]} {place})"

    def struct(self, is_fixed):
        _, place = self.take()
        self.attributes()
        tag = None if self.sees("{") else self.name()[1]
        if not self.sees("{") or is_fixed:
            return f"syntax.StructTag {tag} {place}"
        self.take()
        found = []
        while not self.sees("}"):
            found.append(self.member())
        self.take()
        return f"syntax.Struct {maybe(tag)} (members {as_list(found)}) {place}"

    def member(self):
        if self.sees("static_assert", "_Static_assert"):
            return f"syntax.MemberAssertion {self.assertion()}"
        self.attributes()
        specs, _ = self.specs()
        found = [self.declarator()[0]]
        while self.sees(","):
            self.take()
            found.append(self.declarator()[0])
        self.take(";")
        return f"syntax.MemberDeclarators {specs} (syntax.declarators {as_list(found)})"

    def enum(self, is_fixed):
        _, place = self.take()
        self.attributes()
        tag = None if self.sees("{", ":") else self.name()[1]
        fixed = "syntax.none_of_specs"
        if self.sees(":"):
            self.take()
            fixed = f"(syntax.some_specs {self.specs(is_fixed=True)[0]})"
        if not self.sees("{") or is_fixed:
            return f"syntax.EnumTag {tag} {fixed} {place}"
        self.take()
        found = []
        while not self.sees("}"):
            spelling, name = self.name()
            self.attributes()
            value = "syntax.no_expr"
            if self.sees("="):
                self.take()
                value = f"(syntax.an_expr {self.cond()})"
            self.scopes[-1][spelling] = False
            found.append(f"syntax.enumerator {name} {value}")
            if self.sees(","):
                self.take()
        self.take()
        return f"syntax.Enum {maybe(tag)} {fixed} (enumerators {as_list(found)}) {place}"

    def typeof(self):
        spelling, place = self.take()
        self.take("(")
        if self.begins_type():
            found = f"syntax.TypeofType word.{TYPEOF[spelling]} {self.type_name()} {place}"
        else:
            found = f"syntax.TypeofExpr word.{TYPEOF[spelling]} {self.expr()} {place}"
        self.take(")")
        return found

    # ---- declarators: the term, the name, and of the step next to it the names that its parameters declare

    def pointers(self):
        found = []
        while self.sees("*"):
            _, star = self.take()
            self.attributes()
            quals = []
            while self.sees(*QUALIFIER):
                quals.append(self.qualifier())
            found.append(f"pointer {star} {as_list(quals)}")
        return as_list(found)

    def declarator(self, is_abstract=False, is_parameter=False):
        pointers = self.pointers()
        if self.is_group(is_abstract, is_parameter):
            _, place = self.take()
            inner, name, own = self.declarator(is_abstract, is_parameter)
            self.take(")")
            suffixes, others = self.suffixes()
            return f"(syntax.Grouped {pointers} {inner} {suffixes} {place})", name, next_step(own, others, pointers)
        if self.tokens[self.k][0] == "name" and not is_abstract:
            spelling, name = self.name()
            self.attributes()
            suffixes, own = self.suffixes()
            return f"(syntax.Named {pointers} {name} {suffixes})", spelling, next_step(own, None, pointers)
        suffixes, own = self.suffixes()
        return f"(syntax.Unnamed {pointers} {suffixes})", None, next_step(own, None, pointers)

    def is_group(self, is_abstract, is_parameter):
        if not self.sees("("):
            return False
        if is_abstract:
            return self.sees("*", "(", "[", ahead=1)
        if is_parameter:
            return self.sees("*", "(", ahead=1) or self.sees("[", ahead=1) or (
                self.tokens[self.k + 1][0] == "name" and not self.begins_type(ahead=1) and not self.sees(*STORAGE, ahead=1))
        return True

    def suffixes(self):
        found, own = [], None
        while self.sees("[", "("):
            spelling, place = self.take()
            if spelling == "[":
                length = "syntax.no_expr" if self.sees("]") else f"(syntax.an_expr {self.cond()})"
                self.take("]")
                found.append(f"syntax.ArraySuffix {length} {place}")
                own = own if own is not None else NO_FUNCTION
            else:
                self.scopes.append({})
                params, is_variadic = self.parameters()
                entries = self.scopes.pop()
                found.append(f"syntax.FunctionSuffix (parameters {params}) {is_variadic} {place}")
                own = own if own is not None else entries
            self.attributes()
        return f"(suffixes {as_list(found)})", own

    def parameters(self):
        found, is_variadic = [], "false"
        while not self.sees(")"):
            if self.sees("..."):
                self.take()
                is_variadic = "true"
                break
            first = self.place()
            self.attributes()
            specs, _ = self.specs()
            declarator, name, _ = self.declarator(is_parameter=True)
            if name:
                self.scopes[-1][name] = False
            found.append(f"syntax.parameter {specs} {declarator} {first}")
            if not self.sees(")"):
                self.take(",")
        self.take(")")
        return as_list(found), is_variadic

    def type_name(self):
        specs, _ = self.specs()
        declarator, _, _ = self.declarator(is_abstract=True)
        return f"(syntax.type_name {specs} {declarator})"

    # ---- initializers

    def initializer(self):
        if self.sees("{"):
            return f"(syntax.Braced {self.braces()})"
        return f"(syntax.Single {self.assign()})"

    def braces(self):
        _, place = self.take("{")
        found = []
        while not self.sees("}"):
            steps = []
            while self.sees("[", "."):
                sign, at = self.take()
                if sign == "[":
                    steps.append(f"syntax.ElementDesignator {self.cond()} {at}")
                    self.take("]")
                else:
                    steps.append(f"syntax.MemberDesignator {self.name()[1]} {at}")
            if steps:
                self.take("=")
            found.append(f"syntax.item (designators {as_list(steps)}) {self.initializer()}")
            if not self.sees("}"):
                self.take(",")
        self.take("}")
        return f"(syntax.braces (items {as_list(found)}) {place})"

    # ---- expressions

    def expr(self):
        found = self.assign()
        while self.sees(","):
            _, place = self.take()
            found = f"(syntax.Comma {found} {self.assign()} {place})"
        return found

    def assign(self):
        left = self.cond()
        if self.sees("="):
            _, place = self.take()
            return f"(syntax.Assign {left} {self.assign()} {place})"
        if self.sees(*COMPOUND):
            sign, place = self.take()
            return f"(syntax.AssignBy op.{COMPOUND[sign]} {left} {self.assign()} {place})"
        return left

    def cond(self):
        condition = self.binary(0)
        if not self.sees("?"):
            return condition
        _, place = self.take()
        first = self.expr()
        self.take(":")
        return f"(syntax.Conditional {condition} {first} {self.cond()} {place})"

    def binary(self, level):
        if level == len(BINARY):
            return self.cast()
        left = self.binary(level + 1)
        while self.sees(*BINARY[level]):
            sign, place = self.take()
            right = self.binary(level + 1)
            form = f"syntax.Logic logic.{BINARY[level][sign]}" if level < 2 else f"syntax.Binary op.{BINARY[level][sign]}"
            left = f"({form} {left} {right} {place})"
        return left

    def cast(self):
        if not (self.sees("(") and self.begins_type(ahead=1)):
            return self.unary()
        start = self.k
        _, place = self.take()
        name = self.type_name()
        self.take(")")
        if self.sees("{"):
            self.k = start
            return self.unary()
        return f"(syntax.Cast {name} {self.cast()} {place})"

    def unary(self):
        if self.sees("++", "--"):
            sign, place = self.take()
            return f"(syntax.Step step.{'Increment' if sign == '++' else 'Decrement'} side.Prefix {self.unary()} {place})"
        if self.sees(*PREFIX):
            sign, place = self.take()
            return f"(syntax.Unary prefix.{PREFIX[sign]} {self.cast()} {place})"
        if self.sees("sizeof", "alignof", "_Alignof"):
            word, place = self.take()
            if not (self.sees("(") and self.begins_type(ahead=1)):
                return f"(syntax.SizeofExpr {self.unary()} {place})"
            start = self.k
            self.take()
            name = self.type_name()
            self.take(")")
            if word == "sizeof" and self.sees("{"):
                self.k = start
                return f"(syntax.SizeofExpr {self.unary()} {place})"
            return f"(syntax.{'SizeofType' if word == 'sizeof' else 'Alignof'} {name} {place})"
        return self.postfix()

    def postfix(self):
        found = self.primary()
        while True:
            if self.sees("["):
                _, place = self.take()
                found = f"(syntax.Index {found} {self.expr()} {place})"
                self.take("]")
            elif self.sees("("):
                _, place = self.take()
                arguments = []
                while not self.sees(")"):
                    arguments.append(self.assign())
                    if not self.sees(")"):
                        self.take(",")
                self.take()
                found = f"(syntax.Call {found} (syntax.exprs {as_list(arguments)}) {place})"
            elif self.sees(".", "->"):
                sign, place = self.take()
                found = f"(syntax.{'Member' if sign == '.' else 'Arrow'} {found} {self.name()[1]} {place})"
            elif self.sees("++", "--"):
                sign, place = self.take()
                found = f"(syntax.Step step.{'Increment' if sign == '++' else 'Decrement'} side.Postfix {found} {place})"
            else:
                return found

    def primary(self):
        kind, spelling, place = self.tokens[self.k]
        if kind == "number":
            self.take()
            value, basic = constant(spelling)
            return f"(syntax.Constant (pos {value}) basic.{basic} {place})"
        if kind == "char":
            self.take()
            value = bytes_of(spelling)[0]
            return f"(syntax.Constant {integer(value - 256 if value > 127 else value)} basic.Int {place})"
        if kind == "text":
            found = []
            while self.tokens[self.k][0] == "text":
                found += bytes_of(self.take()[0])
            return f"(syntax.Text {text_list(found)} {place})"
        if spelling in ("true", "false"):
            self.take()
            return f"(syntax.Truth {spelling} {place})"
        if spelling == "nullptr":
            self.take()
            return f"(syntax.Nullptr {place})"
        if spelling == "(" and self.begins_type(ahead=1):
            return self.literal()
        if spelling == "(":
            self.take()
            inner = self.expr()
            self.take(")")
            return f"(syntax.Parenthesized {inner} {place})"
        return f"(syntax.Identifier {self.name()[1]})"

    def literal(self):
        _, place = self.take()
        specs, _ = self.specs()
        declarator, _, own = self.declarator(is_abstract=True)
        name = f"(syntax.type_name {specs} {declarator})"
        self.take(")")
        if not isinstance(own, dict):
            return f"(syntax.CompoundLiteral {name} {self.braces()} {place})"
        self.scopes.append(own)
        body = self.block(own_scope=False)
        self.scopes.pop()
        return f"(syntax.FunctionLiteral {name} {body} {place})"

    # ---- statements

    def block(self, own_scope=True):
        if own_scope:
            self.scopes.append({})
        _, first = self.take("{")
        found = []
        while not self.sees("}"):
            found.append(self.block_item())
        _, last = self.take()
        if own_scope:
            self.scopes.pop()
        return f"(syntax.block (block_items {as_list(found)}) (span {first} {last}))"

    def block_item(self):
        start = self.k
        self.attributes()
        if self.sees("case"):
            _, place = self.take()
            value = self.cond()
            self.take(":")
            return f"syntax.CaseLabel {value} {place}"
        if self.sees("default"):
            _, place = self.take()
            self.take(":")
            return f"syntax.DefaultLabel {place}"
        if self.begins_declaration() or self.k > start and self.sees(";"):
            self.k = start
            return f"syntax.DeclarationItem {self.declaration()}"
        return f"syntax.StatementItem {self.statement()}"

    def statement(self):
        self.attributes()
        first = self.place()
        if self.sees("{"):
            body = self.block()
            return f"(syntax.CompoundStatement {body} (span {first} {self.last()}))"
        word = self.tokens[self.k][1]
        form = getattr(self, f"{word}_statement", None) if self.tokens[self.k][0] == "name" else None
        self.scopes.append({})
        found = form() if form else self.expression_statement()
        self.scopes.pop()
        return f"({found} (span {first} {self.last()}))"

    def expression_statement(self):
        value = self.maybe_expr(";")
        return f"syntax.ExpressionStatement {value}"

    def maybe_expr(self, ending):
        value = "syntax.no_expr" if self.sees(ending) else f"(syntax.an_expr {self.expr()})"
        self.take(ending)
        return value

    def if_statement(self):
        self.take()
        self.take("(")
        d = f"(syntax.a_declaration {self.declaration()})" if self.begins_declaration() else "syntax.no_declaration"
        condition = self.expr()
        self.take(")")
        first = self.statement()
        second = "syntax.no_statement"
        if self.sees("else"):
            self.take()
            second = f"(syntax.a_statement {self.statement()})"
        return f"syntax.If {d} {condition} {first} {second}"

    def controlled(self, form):
        self.take()
        self.take("(")
        value = self.expr()
        self.take(")")
        return f"syntax.{form} {value} {self.statement()}"

    def switch_statement(self):
        return self.controlled("Switch")

    def while_statement(self):
        return self.controlled("While")

    def do_statement(self):
        self.take()
        body = self.statement()
        self.take("while")
        self.take("(")
        condition = self.expr()
        self.take(")")
        self.take(";")
        return f"syntax.DoWhile {body} {condition}"

    def for_statement(self):
        self.take()
        self.take("(")
        if self.begins_declaration():
            form, first = "ForDeclaration", self.declaration()
        else:
            form, first = "For", self.maybe_expr(";")
        condition, step = self.maybe_expr(";"), self.maybe_expr(")")
        return f"syntax.{form} {first} {condition} {step} {self.statement()}"

    def break_statement(self):
        _, place = self.take()
        self.take(";")
        return f"syntax.Break {place}"

    def continue_statement(self):
        _, place = self.take()
        self.take(";")
        return f"syntax.Continue {place}"

    def return_statement(self):
        _, place = self.take()
        return f"syntax.Return {self.maybe_expr(';')} {place}"

    def defer_statement(self):
        _, place = self.take()
        return f"syntax.Defer {self.statement()} {place}"


# the step next to a name, where it isn't a list of parameters
NO_FUNCTION = ()


def next_step(inner, outer, pointers):
    """Of the steps inside parentheses and behind them, and pointers before them, the one next to the name."""
    return inner if inner is not None else outer if outer is not None else NO_FUNCTION if pointers != "[]" else None


def as_list(found):
    return "(" + " ∷ ".join([*(f"{one}" for one in found), "[]"]) + ")" if found else "[]"


def maybe(term):
    return "None" if term is None else f"(Some {term})"


# ---- laws

USES = {
    "basic": "Rattle.model_types.specs.declared.numbers.Basic.TheVariants",
    "op": "Rattle.model_types.specs.declared.numbers.BinOp.TheVariants",
    "logic": "Rattle.model_types.specs.declared.operators.LogicOp.TheVariants",
    "step": "Rattle.model_types.specs.declared.operators.StepOp.TheVariants",
    "side": "Rattle.model_types.specs.declared.operators.StepSide.TheVariants",
    "storage": "Rattle.model_grammar.specs.declared.syntax.StorageWord.TheVariants",
    "function": "Rattle.model_grammar.specs.declared.syntax.FunctionWord.TheVariants",
    "type": "Rattle.model_grammar.specs.declared.syntax.TypeWord.TheVariants",
    "qual": "Rattle.model_grammar.specs.declared.syntax.QualifierWord.TheVariants",
    "word": "Rattle.model_grammar.specs.declared.syntax.TypeofWord.TheVariants",
    "prefix": "Rattle.model_grammar.specs.declared.syntax.PrefixOp.TheVariants",
}
PRELUDE = ["[]", "◌∷◌", "Some", "None", "true", "false", "pos", "negsuc", "codes"]
PARTS = ["at", "name", "specs", "qualifier", "pointer", "suffixes", "parameters", "members", "enumerators", "declared", "items", "designators", "block_items", "span"]
PARTS_FILE = "Rattle.checking_units.specs.Parts"
ROWS_A_FILE = 24


def words_in(body):
    return set(re.findall(r"[\w.]+", body))


def definitions(title, rows):
    """A file of definitions: each row's tree under its name."""
    body = "".join(f"\n-- {text}\nabbrev pub {name} : List syntax.External\n{name} = {Parser(text).unit()}\n" for name, _, text in rows)
    code = re.sub(r"^--.*$", "", body, flags=re.MULTILINE)
    words = words_in(code)
    prelude = ["List", *(w for w in PRELUDE if w in words or w == "[]" or w == "◌∷◌")]
    lines = [f"-- {title}: units of one line, as trees.", f"use Rattle.std.specs.Prelude.{{{', '.join(prelude)}}}", "use Rattle.model_grammar.specs.SyntaxForms as syntax"]
    lines += [f"use {module} as {alias}" for alias, module in USES.items() if any(w.startswith(alias + ".") for w in words)]
    lines.append(f"use {PARTS_FILE}.{{{', '.join(w for w in PARTS if w in words)}}}")
    return "\n".join(lines) + "\n" + body


def answer(name, due):
    """What is computed of a row, and what it is: whether the unit is accepted, the rule that it breaks, or its limit."""
    if due == "unit":
        return f"outcome rows.{name} ≡ accepted"
    if due == "within":
        return f"is_within_limit rows.{name} ≡ true"
    rule, place = due.split()
    column = place.split(":")[1]
    return f"limit rows.{name} ≡ Some {column}" if rule == "M07" else f"outcome rows.{name} ≡ breaks {int(rule[1:])} {column}"


def laws(module, function, title, rows):
    body = "".join(f"    ensures {name} {{ {answer(name, due)} }}\n" for name, due, _ in rows)
    used = [word for word in ("outcome", "accepted", "breaks", "limit", "is_within_limit") if word in words_in(body)]
    prelude = [*(word for word in ("Some", "true") if word in words_in(body)), "◌≡◌"]
    return (
        f"//! {title}: what the definition of checking answers.\n"
        f"ghost use Rattle.std.specs.Prelude.{{{', '.join(prelude)}}};\nghost use {PARTS_FILE}.{{{', '.join(used)}}};\n"
        f"ghost use Rattle.checking_units.specs.{module} as rows;\n\n/// {title}.\npub fn {function}()\n{body}{{}}\n"
    )


def rows_of(table):
    """A name for the rows of a table, and the rows: a name, what is due, and the text."""
    about = table["about"]
    base = re.sub(r"\W+", "_", about.split(":")[0] if re.match(r"[CM]\d\d", about) else about).lower()
    lines = [line.split(" | ", 1) for line in table["rows"].strip().splitlines()]
    return base, [(f"{base}_{number}", due.strip(), text) for number, (due, text) in enumerate(lines, 1)]


def write():
    top = pathlib.Path(__file__).resolve().parent.parent.parent
    folder = top / "crates" / "checking_units"
    for old in [*folder.glob("specs/Rows*.antt"), *folder.glob("src/rows_*.rt")]:
        old.unlink()
    functions = []
    for table in tomllib.loads((top / "tests/rows/checking.toml").read_text())["table"]:
        base, rows = rows_of(table)
        for start in range(0, len(rows), ROWS_A_FILE):
            function = f"rows_{base}" if len(rows) <= ROWS_A_FILE else f"rows_{base}_{start // ROWS_A_FILE + 1}"
            module = "".join(word.capitalize() for word in function.split("_"))
            part = rows[start : start + ROWS_A_FILE]
            (folder / f"specs/{module}.antt").write_text(definitions(table["about"], part))
            (folder / f"src/{function}.rt").write_text(laws(module, function, table["about"], part))
            functions.append((function, module))
    modules = sorted(["Parts", *(module for _, module in functions)])
    (folder / "specs/Lib.antt").write_text("".join(f"pub mod {module}\n" for module in modules))
    head = "//! Rows of checking over units of one line: each function does nothing, and its contract is what the definitions\n//! answer.\n"
    (folder / "src/lib.rt").write_text(head + "#![tactic(auto)]\n\n" + "".join(f"pub mod {function};\n" for function, _ in sorted(functions)))


if __name__ == "__main__":
    if len(sys.argv) > 1:
        print(Parser(sys.argv[1]).unit())
    else:
        write()
