#!/usr/bin/env python3
"""Makes the table of conversions and operations that gcc gives.

`crates/operations_table` prints the same lines from the proved crate, and its `stdout` file, to which its output is
compared, is what this script made. Called as a program it writes that file anew.
"""
import os
import subprocess
import tempfile

ROOT = os.path.dirname(os.path.dirname(os.path.dirname(os.path.abspath(__file__))))
TABLE = os.path.join(ROOT, "crates", "operations_table", "stdout")

TYPES = ['bool', 'char', 'signed char', 'unsigned char', 'short', 'unsigned short', 'int', 'unsigned', 'long', 'unsigned long', 'long long', 'unsigned long long']
OPERATORS = ['*', '/', '%', '+', '-', '<<', '>>', '<', '>', '<=', '>=', '==', '!=', '&', '^', '|']
VALUES = [0, 1, 2, 5, -1, -128, -129, 127, 128, 200, 255, 256, 300, -32769, 32768, 65536, -2**31, 2**31 - 1,
          2**31, 2**32 - 1, 2**32, -2**63, 2**63 - 1, 2**64 - 1]
PAIRS = [("bool", "bool"), ("signed char", "unsigned short"), ("int", "int"), ("unsigned", "unsigned"), ("long", "long"),
         ("unsigned long", "unsigned long"), ("int", "unsigned"), ("unsigned", "int"), ("long", "unsigned"),
         ("int", "unsigned long"), ("long long", "unsigned long")]
EDGES = [0, -1, 31, -2**63, 2**31]


def wide(value):
    """An expression of type __int128 with this value."""
    sign = "-" if value < 0 else ""
    return "%s(((__int128)%dULL << 64) + %dULL)" % (sign, abs(value) >> 64, abs(value) & (2**64 - 1))


HEAD = r"""
#include <stdio.h>
#include <stdbool.h>
static const char *text(__int128 v) {
    static char buffers[4][48];
    static int turn;
    char *end = buffers[turn = (turn + 1) % 4] + 47;
    unsigned __int128 n = v < 0 ? -(unsigned __int128)v : (unsigned __int128)v;
    *end = 0;
    do { *--end = (char)('0' + (int)(n % 10)); n /= 10; } while (n);
    if (v < 0) *--end = '-';
    return end;
}
#define NAME(e) _Generic((e), bool: "bool", char: "char", signed char: "signed char", \
    unsigned char: "unsigned char", short: "short", unsigned short: "unsigned short", int: "int", \
    unsigned: "unsigned", long: "long", unsigned long: "unsigned long", long long: "long long", \
    unsigned long long: "unsigned long long")
#define IS_SIGNED(e) ((__typeof__(e))-1 < 0)
/* The faults are told by gcc's exact arithmetic: a sum, difference or product that doesn't fit the
   type of the operation, and a quotient in 128 bits. */
#define FITS(e, v) ((__int128)(__typeof__(e))(v) == (v))
"""


def operation(op, left, right):
    """Statements that print one operation for all edges."""
    lines = []
    exact = {"+": "(__int128)x + y", "-": "(__int128)x - y", "*": "(__int128)x * y"}
    for a in EDGES:
        for b in EDGES:
            head = '{ volatile %s a = (%s)%s; volatile %s b = (%s)%s; printf("(%s) %%s %s (%s) %%s = ", text(a), text(b)); ' % (
                left, left, wide(a), right, right, wide(b), left, "%%" if op == "%" else op, right)
            good = 'printf("(%%s) %%s\\n", NAME(a %s b), text(a %s b));' % (op, op)
            if op in exact:
                fault = "IS_SIGNED(a %s b) && !FITS(a %s b, %s)" % (op, op, exact[op])
                body = 'typedef __typeof__(a %s b) T; T x = a, y = b; if (%s) puts("Overflow"); else %s' % (op, fault, good)
            elif op in ("/", "%"):
                body = ('typedef __typeof__(a / b) T; T x = a, y = b; if (y == 0) puts("ZeroDivisor"); '
                        'else if (!FITS(x, (__int128)x / y)) puts("Overflow"); else %s' % good)
            elif op in ("<<", ">>"):
                body = 'typedef __typeof__(a << b) T; T x = a; if (b < 0 || b >= 8 * sizeof x) puts("BadShift"); '
                if op == "<<":
                    body += 'else if (IS_SIGNED(x) && (x < 0 || !FITS(x, (__int128)x << b))) puts("BadShift"); '
                body += "else " + good
            else:
                body = good
            lines.append(head + body + " }")
    return lines


def program():
    lines = []
    for t in TYPES:
        for v in VALUES:
            lines.append('printf("(%s) %d = %%s\\n", text((%s)%s));' % (t, v, t, wide(v)))
    for t in TYPES:
        for u in TYPES:
            lines.append('printf("%s with %s is %%s\\n", NAME((%s)0 + (%s)0));' % (t, u, t, u))
    for op in OPERATORS:
        for t, u in PAIRS:
            lines += operation(op, t, u)
    chunks = [lines[i:i + 300] for i in range(0, len(lines), 300)]
    parts = [HEAD]
    for k, chunk in enumerate(chunks):
        parts.append("static void part%d(void) {\n%s\n}" % (k, "\n".join(chunk)))
    parts.append("int main(void) {\n%s\nreturn 0;\n}" % "\n".join("part%d();" % k for k in range(len(chunks))))
    return "\n".join(parts) + "\n"


def table():
    """The lines that gcc gives."""
    with tempfile.TemporaryDirectory() as folder:
        source = os.path.join(folder, "table.c")
        binary = os.path.join(folder, "table")
        with open(source, "w", encoding="ascii") as out:
            out.write(program())
        subprocess.run(["gcc", "-std=gnu2x", "-O0", "-w", "-o", binary, source], check=True)
        return subprocess.run([binary], check=True, stdout=subprocess.PIPE).stdout.decode().splitlines()


def kept():
    """The lines that are kept beside the proved crate."""
    with open(TABLE, encoding="ascii") as lines:
        return lines.read().splitlines()


if __name__ == "__main__":
    with open(TABLE, "w", encoding="ascii") as to:
        to.write("\n".join(table()) + "\n")
