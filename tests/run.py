#!/usr/bin/env python3
"""The rows of tests/rows on the real command: tests/run.py [SUBJECT..]

Without words every subject runs. A line is printed for each row that fails, one for each subject, and last
`N passed, M failed`; the status is 1 where one failed. What compares with gcc is skipped where there is none. The program
is the one that ./cake builds, or the one that the variable CAKE names.
"""
import glob
import multiprocessing
import os
import random
import re
import subprocess
import sys
import tempfile
import tomllib

TESTS = os.path.dirname(os.path.abspath(__file__))
TOP = os.path.dirname(TESTS)
PROGRAM = os.environ.get("CAKE") or os.path.join(TOP, "crates", "cake_main", "out", "cake_main")
sys.path.insert(0, os.path.join(TESTS, "oracles"))

import expressions  # noqa: E402
import gcc  # noqa: E402
import grammar  # noqa: E402
import operations  # noqa: E402

CODES = {"Written": 0, "Refused": 1, "Usage": 2, "ReadFault": 3, "WriteFault": 4, "NoMemory": 5, "Limit": 6}
NOT_BUILT = re.compile(r"[^\n]*:\d+:\d+: not built yet\n")
SKIPPED = "skipped"


def rows_of(subject):
    """The data of a subject."""
    with open(os.path.join(TESTS, "rows", subject + ".toml"), "rb") as file:
        return tomllib.load(file)


TEXTS = rows_of("texts")


# texts and answers of rows

def text_of(written):
    """A text, of which parts may be told by how often they stand."""
    if isinstance(written, str):
        return written
    return "".join(part if isinstance(part, str) else part["part"] * part["times"] for part in written)


def lines_of(block):
    """The rows of a block that has one a line."""
    return block[:-1].split("\n") if block else []


def fault_line(answer, name="a.c"):
    """Status and line on err for an answer such as `P14 3:1`, `M02 h.h:3:1` or `cannot read h.h`; None for any other."""
    if answer.startswith("cannot read "):
        return CODES["ReadFault"], f"cake: {answer}\n"
    found = re.fullmatch(r"([PLSM]\d\d) (?:(\S+):)?(\d+:\d+)", answer)
    if found is None:
        return None
    number, file, place = found.groups()
    if number in TEXTS["limits"]:
        return CODES["Limit"], f"{file or name}:{place}: limit {number}: {TEXTS['limits'][number]}\n"
    return CODES["Refused"], f"{file or name}:{place}: error {number}: {TEXTS['rules'][number]}\n"


# what a case does; each gives None, or what differs

def cake(words, files, stdin=""):
    """Status, out and err of the command in a folder that has these files."""
    with tempfile.TemporaryDirectory() as folder:
        for name, text in files.items():
            path = os.path.join(folder, name)
            os.makedirs(os.path.dirname(path), exist_ok=True)
            with open(path, "w", encoding="latin-1", newline="") as file:
                file.write(text)
        words = [word.encode("latin-1") for word in words]
        done = subprocess.run([PROGRAM, *words], cwd=folder, input=stdin.encode("latin-1"), capture_output=True, check=False)
    return done.returncode, done.stdout.decode("latin-1"), done.stderr.decode("latin-1")


def short(value, most=300):
    text = repr(value)
    return text if len(text) <= most else text[:most] + ".."


def compared(got, wanted):
    return None if got == wanted else f"{short(got)}, and {short(wanted)} is due"


def whole(words, files, stdin, wanted):
    """The answer is this one, byte by byte."""
    return compared(cake(words, files, stdin), wanted)


def expanded(words, files, answer, notes=""):
    """With -E the command puts out these tokens, or breaks this rule."""
    status, out, err = cake(["-E", *words, "a.c"], files)
    fault = fault_line(answer)
    if fault:
        return compared((status, out, err), (fault[0], "", notes + fault[1]))
    return compared((status, out.replace("\n", " ").strip(" "), err), (CODES["Written"], answer.strip(" "), notes))


def checked(text, answer):
    """The text is a unit, or breaks this rule or passes this limit."""
    status, out, err = cake(["--check", "a.c"], {"a.c": text})
    fault = fault_line(answer)
    if fault:
        return compared((status, out, err), (fault[0], "", fault[1]))
    return None if is_unit(status, out, err) else short((status, out, err))


def is_unit(status, out, err):
    return not out and (status == CODES["Written"] and not err or status == CODES["Refused"] and NOT_BUILT.fullmatch(err))


def reads_words(line, bad):
    status, out, err = cake(line.split(" "), {})
    if bad:
        return compared((status, out, err), (CODES["Usage"], "", f"cake: usage: word {bad}\n"))
    return None if status != CODES["Usage"] else short((status, out, err))


def judged_by_gcc(condition, answer):
    return compared(gcc.condition(condition), answer) if gcc.is_there() else SKIPPED


def text_is_c89(path):
    """A C89 compiler reads a text that the writer writes."""
    if not gcc.is_there():
        return SKIPPED
    words = ["-std=c89", "-pedantic-errors", "-Wall", "-Wno-overlength-strings", "-fsyntax-only", "-xc", path]
    code, _, err = gcc.gcc(words)
    return None if code == 0 else err


def place_of(answer):
    found = re.fullmatch(r"S01 (\d+):(\d+)", answer)
    return tuple(map(int, found.groups())) if found else None


def parsed(text, answer):
    """The command and the slow recogniser find the fault that is told, or each the other's where none is told."""
    place = grammar.fault(text)
    found = f"S01 {place[0]}:{place[1]}" if place else "unit"
    if answer and found != answer:
        return f"the recogniser finds {found}"
    return checked(text, found)


def source_is_unit(path):
    done = subprocess.run([PROGRAM, "--check", path], capture_output=True, check=False)
    last = (done.stderr.decode().splitlines(True) or [""])[-1]
    return None if done.returncode == 0 or NOT_BUILT.fullmatch(last) else last


def rule_example(rule, text, line):
    """An example of docs/RULES.md ends with its line, which has the rule's text."""
    expand = rule[0] in "PM" and rule != "M06" or rule == "L01"
    status, out, err = cake((["-E"] if expand else []) + ["a.c"], {"a.c": text})
    place = line.split(" ")[0].removeprefix("a.c:").removesuffix(":")
    due, wanted = fault_line(f"{rule} {place}")
    return compared((status, out, (err.splitlines() or [""])[-1], line + "\n"), (due, "", line, wanted))


def header_ends(name, line, end):
    status, out, err = cake(["-E", "a.c"], {"a.c": f"#include <{name}>\n{line}\n"})
    right = status == 0 and not err and out.replace("\n", " ").strip(" ").endswith(end)
    return None if right else short((status, out[-200:], err))


def headers_are_read(names):
    status, out, err = cake(["-E", "a.c"], {"a.c": "".join(f"#include <{name}>\n" for name in names)})
    if status or err:
        return short((status, err))
    return (None if gcc.reads(out) else "gcc doesn't read it") if gcc.is_there() else SKIPPED


def header_macro(header, name):
    """A macro of a built-in header has the value and the type that it has in gcc's."""
    status, out, err = cake(["-E", "a.c"], {"a.c": f"#include <{header}>\nbehind {name}\n"})
    if status or err:
        return short((status, err))
    if not gcc.is_there():
        return SKIPPED
    text = out.rpartition("behind ")[2].strip()
    differs = gcc.differs(header, name, text)
    return f"{text} has another {differs}" if differs else None


def header_type(header, name):
    """A type of a built-in header is that of gcc's."""
    status, out, err = cake(["-E", "a.c"], {"a.c": f"#include <{header}>\n"})
    found = re.search(rf"typedef ([^;]*) {name} ;", out)
    if status or err or not found:
        return short((status, out, err))
    if not gcc.is_there():
        return SKIPPED
    return None if gcc.is_type(header, name, found[1]) else f"{found[1]} is another type"


def header_functions(header, own):
    """What a built-in header declares can stand behind gcc's header, but for the type that is its own."""
    status, out, err = cake(["-E", "a.c"], {"a.c": f"#include <{header}>\n"})
    if status or err:
        return short((status, err))
    if not gcc.is_there():
        return SKIPPED
    # a function of gcc's header may be hidden by a macro of its name
    shown = "".join(f"#undef {name}\n" for name in re.findall(r"(\w+) \(", out))
    return None if gcc.reads(f"#include <{header}>\n{shown}" + out.replace(own, "")) else "gcc has other types"


def example_expands(name):
    """The tokens of an example are those that gcc makes of it."""
    folder = os.path.join(TOP, "examples")
    done = subprocess.run([PROGRAM, "-E", "-I", "include", name], cwd=folder, capture_output=True, check=False)
    if done.returncode or done.stderr:
        return short(done)
    return compared(gcc.tokens(done.stdout.decode()), gcc.preprocessed(folder, name)) if gcc.is_there() else SKIPPED


def expression_returns(text, value):
    """The text of an expression is C89, and returns its value where it has one."""
    status, out, err = cake(["a.c"], {"a.c": f"int main(void) {{ return {text}; }}"})
    if status or err:
        return short((status, err))
    if not gcc.is_there():
        return SKIPPED
    got = gcc.returned(out)
    if value is None:
        return None if isinstance(got, int) else got
    return compared(got, value % 256)


def operations_agree():
    return compared(operations.table(), operations.kept()) if gcc.is_there() else SKIPPED


# the cases of each subject: what is done, and with what

def words_cases():
    data = rows_of("words")
    return [(reads_words, line, bad) for line, bad in data["bad"]] + [(reads_words, line, 0) for line in data["good"]]


def command_cases():
    data = rows_of("command")
    for words, text, status, out, err, *files in data["rows"]:
        if isinstance(out, dict):
            out = f"int main(void);\n\nint main(void)\n{{\n    return {text_of(out['returns'])};\n}}\n"
        held = dict(files[0]) if files else {}
        text = text_of(text) if text is not False else ""
        if text is not False and "a.c" in words:
            held.setdefault("a.c", text)
        yield whole, words, held, text if words == ["-"] else "", (CODES[status], text_of(out), err)
    for last, line in data["chains"]:
        links = "".join(f"#define A{k} A{k - 1} A{k - 1}\n" for k in range(1, 22))
        yield whole, ["a.c"], {"a.c": f"#define A0 x\n{links}A{last}\n"}, "", (CODES["Limit"], "", line + "\n")


def condition_cases():
    data = rows_of("conditions")
    for table in data["table"]:
        for answer, block in table.items():
            for condition in lines_of(block) if answer != "about" else []:
                value = answer in ("true", "false")
                yield expanded, [], {"a.c": in_if(condition)}, answer if value else f"{answer} 1:1"
                # gcc defines the operators that are left out here
                if value and "__has_" not in condition:
                    yield judged_by_gcc, condition, answer
    for table in data["replaced"]:
        for definitions, condition, answer in table["rows"]:
            yield expanded, [], {"a.c": defined(definitions) + in_if(condition)}, answer
    for table in data["nested"]:
        for before, middle, after, answer in table["rows"]:
            yield expanded, [], {"a.c": in_if(before * table["times"] + middle + after * table["times"])}, answer


def in_if(condition):
    return f"#if {condition}\ntrue\n#else\nfalse\n#endif\n"


def defined(definitions):
    return "".join(f"#define {line}\n" for line in definitions)


def macro_cases():
    data = rows_of("macros")
    for table in data["definitions"]:
        for definitions, text, answer in table["rows"]:
            yield expanded, [], {"a.c": defined(definitions) + text}, answer
    for table in data["table"]:
        for text, answer in table["rows"]:
            yield expanded, [], {"a.c": defined(table["define"]) + text}, answer


def directive_cases():
    for table in rows_of("directives")["table"]:
        for text, answer, *notes in table["rows"]:
            yield expanded, ["-D", "GIVEN=1+1"], {"a.c": text}, answer, "".join(note + "\n" for note in notes)


def include_cases():
    data = rows_of("includes")
    for table in data["table"]:
        for files, answer, *notes in table["rows"]:
            held = {name: text_of(text) for name, text in files.items()}
            yield expanded, table["words"], held, text_of(answer), "".join(note + "\n" for note in notes)
    for count, answer in data["many"]:
        names = [f"h{at}.h" for at in range(count)]
        yield expanded, [], {"a.c": included(names), **dict.fromkeys(names, "")}, answer
    for count, size, answer in data["large"]:
        names = [f"h{at}.h" for at in range(count)]
        yield expanded, [], {"a.c": included(names), **dict.fromkeys(names, " " * size)}, answer


def included(names):
    return "".join(f'#include "{name}"\n' for name in names)


def token_cases():
    data = rows_of("tokens")
    for text, answer in data["preprocessing"]:
        yield expanded, [], {"a.c": text}, answer
    for token, rule in data["broken"]:
        yield checked, " " + token, f"{rule} 1:2"
    for token, value in data["constants"]:
        text = f"int main(void);\n\nint main(void)\n{{\n    return {value};\n}}\n"
        yield whole, ["a.c"], {"a.c": f"int main(void) {{ return {token}; }}"}, "", (0, text, "")


def nesting_cases():
    for table in rows_of("nesting")["table"]:
        for before, part, times, after, answer in table["rows"]:
            yield checked, before + part * times + after, answer


def syntax_cases():
    data = rows_of("syntax")
    texts = []
    for table in data["table"]:
        for line in lines_of(table["rows"]):
            marked = table.get("before", "") + line + table.get("after", "")
            text = marked.replace("@", "")
            texts.append(text)
            yield parsed, text, marked_fault(text, marked.find("@"))
    made = random.Random(20261201)
    for _ in range(data["made"]):
        yield parsed, changed(made, texts), ""
    for path in sorted(glob.glob(os.path.join(TOP, "examples", "*", "*.c"))):
        yield source_is_unit, path


def marked_fault(text, at):
    """The fault at the first token that stands at the mark or behind it, or at the end."""
    if at < 0:
        return "unit"
    tokens, end = grammar.tokens_of(text)
    place = next((token[2:] for token in tokens if token[2:] >= (1, at + 1)), end)
    return f"S01 {place[0]}:{place[1]}"


def changed(made, texts):
    """One of the texts with a few tokens left out, doubled, exchanged, or taken from another text."""
    tokens = [token[1] for token in grammar.tokens_of(made.choice(texts))[0]]
    others = [token[1] for token in grammar.tokens_of(made.choice(texts))[0]] or [";"]
    for _ in range(made.randint(1, 3)):
        at, what = made.randrange(len(tokens) + 1), made.randrange(4)
        if what == 0:
            del tokens[at:at + 1]
        elif what == 1:
            tokens[at:at] = tokens[at:at + made.randint(1, 2)]
        elif what == 2:
            tokens[at:at + 1] = [made.choice(others)]
        else:
            start = made.randrange(len(others))
            tokens[at:at] = others[start:start + made.randint(1, 3)]
    return " ".join(tokens)


def rule_cases():
    with open(os.path.join(TOP, "docs", "RULES.md"), encoding="utf-8") as file:
        examples = re.findall(r"^### (\w\d\d)\n```c\n(.*?)```\n`(.*?)`$", file.read(), re.M | re.S)
    for rule in sorted(set(TEXTS["rules"]) - {rule for rule, _, _ in examples}):
        yield missing_example, rule
    for rule, text, line in examples:
        yield rule_example, rule, text, line


def missing_example(rule):
    return f"{rule} has no example in docs/RULES.md"


def header_cases():
    data = rows_of("headers")
    rows = data["rows"]
    names = [name for name, _, _ in rows]
    with open(os.path.join(TOP, data["source"]), encoding="utf-8") as file:
        texts = dict(re.findall(r'^/// `<(\S+)>`.*?^pub const \w+: &\[u8\] = b"(.*?)^";$', file.read(), re.M | re.S))
    for name in names:
        for macro in re.findall(r"^#define (\w+) ", texts[name], re.M):
            yield header_macro, name, macro
        for type_name in re.findall(r"^typedef [^;]* (\w+);$", texts[name], re.M):
            if type_name not in data["own"]:
                yield header_type, name, type_name
        yield header_functions, name, data["own"].get("FILE", "")
    for name, line, end in rows:
        yield header_ends, name, line, end
    for together in [[name] for name in names] + [names, names[::-1], names + names]:
        yield headers_are_read, together


def example_cases():
    for path in sorted(glob.glob(os.path.join(TOP, "examples", "*.c"))):
        yield example_expands, os.path.basename(path)


def expression_cases():
    return [(expression_returns, text, value) for text, value in expressions.made(240)]


def operation_cases():
    return [(operations_agree,)]


def text_cases():
    return [(text_is_c89, os.path.join(TOP, "crates", "writer_table", "stdout"))]


SUBJECTS = {
    "words": words_cases,
    "command": command_cases,
    "tokens": token_cases,
    "macros": macro_cases,
    "conditions": condition_cases,
    "directives": directive_cases,
    "includes": include_cases,
    "headers": header_cases,
    "examples": example_cases,
    "syntax": syntax_cases,
    "nesting": nesting_cases,
    "rules": rule_cases,
    "expressions": expression_cases,
    "operations": operation_cases,
    "texts": text_cases,
}


def tried(case):
    what, *given = case
    return what(*given)


def run_subject(pool, subject):
    """How many cases of a subject passed, failed and were skipped."""
    cases = list(SUBJECTS[subject]())
    counts = {"passed": 0, "failed": 0, SKIPPED: 0}
    for case, problem in zip(cases, pool.imap(tried, cases, chunksize=4)):
        counts["passed" if problem is None else SKIPPED if problem == SKIPPED else "failed"] += 1
        if problem not in (None, SKIPPED):
            print(f"{subject}: {case[0].__name__} {short(case[1:])}: {problem}")
    skipped = f", {counts[SKIPPED]} skipped for want of gcc" if counts[SKIPPED] else ""
    print(f"{subject}: {counts['passed']} passed, {counts['failed']} failed{skipped}", flush=True)
    return counts


def main():
    subjects = sys.argv[1:] or list(SUBJECTS)
    unknown = [subject for subject in subjects if subject not in SUBJECTS]
    if unknown:
        print(f"run.py: no subject {unknown[0]}; there are {' '.join(SUBJECTS)}")
        return 2
    # The first use builds the program, and says so on standard error.
    if "CAKE" not in os.environ and subprocess.run([os.path.join(TOP, "cake")], stdout=subprocess.DEVNULL, check=False).returncode == 70:
        return 1
    passed = failed = 0
    with multiprocessing.Pool() as pool:
        for subject in subjects:
            counts = run_subject(pool, subject)
            passed, failed = passed + counts["passed"], failed + counts["failed"]
    print(f"{passed} passed, {failed} failed")
    return 1 if failed or not passed else 0


if __name__ == "__main__":
    sys.exit(main())
