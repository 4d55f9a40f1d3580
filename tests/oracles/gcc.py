"""What gcc makes of texts: values of conditions, preprocessed tokens, and whether a text is read and what it returns."""
import os
import re
import shutil
import subprocess
import tempfile

TOKEN = re.compile(
    r"""
      [A-Za-z_][A-Za-z0-9_]*
    | \.?[0-9](?:'[0-9A-Za-z]|[eEpP][+-]|[0-9A-Za-z_.])*
    | "(?:\\.|[^"\\\n])*"
    | '(?:\\.|[^'\\\n])*'
    | \.\.\. | <<= | >>= | -> | \+\+ | -- | << | >> | <= | >= | == | != | && | \|\| | ::
    | \*= | /= | %= | \+= | -= | &= | \^= | \|= | \#\#
    | \S
    """,
    re.VERBOSE,
)


def is_there():
    return shutil.which("gcc") is not None


def gcc(words, text="", folder=None):
    done = subprocess.run(["gcc", *words], input=text.encode("latin-1"), cwd=folder, capture_output=True, check=False)
    return done.returncode, done.stdout.decode("latin-1"), done.stderr.decode("latin-1")


def tokens(text):
    """The preprocessing tokens of a text, without the pragmas that gcc keeps."""
    return TOKEN.findall("\n".join(line for line in text.splitlines() if not line.lstrip().startswith("#pragma")))


def condition(text):
    """`true` or `false`, or what gcc says of a condition that it doesn't take."""
    code, out, err = gcc(["-E", "-P", "-std=c2x", "-x", "c", "-"], f"#if {text}\ntrue\n#else\nfalse\n#endif\n")
    return out.strip() if code == 0 else err.strip()


def preprocessed(folder, name):
    """The tokens of a file of the folder, whose headers are in `include` there."""
    code, out, err = gcc(["-E", "-P", "-std=c2x", "-nostdinc", "-I", "include", name], folder=folder)
    return tokens(out) if code == 0 else [err]


def reads(text):
    """Whether a text of C23 is read."""
    words = ["-std=c2x", "-w", "-fsyntax-only", "-fno-builtin", "-D_Owner=", "-D_Opt=", "-xc", "-"]
    return gcc(words, text)[0] == 0


def differs(header, name, text):
    """What of a macro of gcc's header isn't as a text has it: `value`, `type`, or None."""
    program = f"""#include <{header}>
    int main(void) {{
        if ({text} != {name}) return 1;
        return __builtin_types_compatible_p(__typeof__({text}), __typeof__({name})) ? 0 : 2;
    }}"""
    return {0: None, 1: "value", 2: "type"}.get(ran(program, "-std=c2x"), "neither value nor type")


def is_type(header, name, text):
    """Whether a type of gcc's header is this one."""
    program = f"#include <{header}>\nint main(void) {{ return !__builtin_types_compatible_p({text}, {name}); }}"
    return ran(program, "-std=c2x") == 0


def ran(text, *words):
    """What a program returns, or what gcc says of a text that it doesn't take."""
    with tempfile.TemporaryDirectory() as folder:
        program = os.path.join(folder, "program")
        code, _, err = gcc([*words, "-w", "-x", "c", "-o", program, "-"], text)
        return subprocess.run([program], check=False).returncode if code == 0 else err


def returned(text):
    """What the program of a C89 text returns, or what gcc says of a text that it doesn't take."""
    return ran(text, "-std=c89", "-pedantic-errors")
