"""Programs that ./record has to refuse, with the reason; and headers that don't fit the hooks."""
import os
import subprocess
import tempfile
from pathlib import Path

from recorder import hook_headers
from tests.recorder.building import HUNG, PROGRAMS, ROOT, differences

REFUSED = 125
OWN_MALLOC = """
#include <cstddef>
#include <memory>
alignas(16) static char room[1 << 24];
static size_t used;
extern "C" void* malloc(size_t size) {
  void* at = room + used;
  used += (size + 31) & ~size_t(15);
  return at;
}
extern "C" void free(void*) {}
struct Node { std::shared_ptr<Node> next; };
int main() { auto a = std::make_shared<Node>(); a->next = a; }
"""


def record(program, *options):
    command = [ROOT / "record", *options, program]
    return subprocess.run(command, capture_output=True, text=True, cwd=PROGRAMS, timeout=HUNG)


def built(folder, *flags, text=None, compiler="g++"):
    """circle.cc or a text, built with these flags."""
    source = PROGRAMS / "circle.cc"
    if text:
        source = Path(folder, "text.cc")
        source.write_text(text)
    to = Path(folder, "program")
    subprocess.run([compiler, source, "-g", "-o", to, *flags], check=True, capture_output=True)
    return to


def refusal(program, why):
    """What is wrong with the refusal of a program."""
    ran = record(program)
    right = ran.returncode == REFUSED and ran.stderr == f"record: refused: {why}\n"
    return "" if right else f"{ran.returncode} {ran.stderr}"


def without_types():
    why = "it is compiled without RTTI: control blocks are there, and tell no type; see --flags"
    with tempfile.TemporaryDirectory() as folder:
        return refusal(built(folder, "-fno-rtti"), why)


def without_types_with_hooks():
    """Hooks tell types themselves."""
    flags = subprocess.run(
        [ROOT / "record", "--flags"], capture_output=True, text=True, check=True
    ).stdout.split()
    with tempfile.TemporaryDirectory() as folder:
        ran = record(built(folder, "-fno-rtti", *flags))
    right = (
        ran.returncode == 3
        and "knot 2 Node, tied by Node::child 1, Node::parent 1\nweaken Node::parent\n" in ran.stderr
    )
    return "" if right else ran.stderr


def static_program():
    with tempfile.TemporaryDirectory() as folder:
        program = built(folder, "-static")
        return refusal(program, "it is linked statically, so that no library can be loaded into it")


def own_malloc():
    with tempfile.TemporaryDirectory() as folder:
        return refusal(built(folder, text=OWN_MALLOC), "it has a malloc of its own")


def sanitizer():
    with tempfile.TemporaryDirectory() as folder:
        program = built(folder, "-fsanitize=address")
        return refusal(program, "it is built with a sanitizer, which has a malloc of its own")


def of_32_bit():
    """The head of such a program."""
    with tempfile.TemporaryDirectory() as folder:
        program = Path(folder, "program")
        program.write_bytes(b"\x7fELF\x01\x01\x01" + bytes(45))
        program.chmod(0o755)
        return refusal(program, "it is a 32-bit program")


def other_library():
    """A program that is linked with a library of libc++'s name."""
    with tempfile.TemporaryDirectory() as folder:
        library = Path(folder, "libc++.so.1")
        command = ["g++", "-shared", "-fPIC", "-x", "c++", "-", "-Wl,-soname,libc++.so.1", "-o", library]
        subprocess.run(command, input="int in_the_library() { return 1; }", text=True, check=True)
        program = built(folder, "-Wl,--no-as-needed", library, f"-Wl,-rpath,{folder}")
        return refusal(program, "it uses libc++, and only the handles of libstdc++ are known")


def missing_interpreter():
    """A script's interpreter, and a program's loader, that aren't there."""
    why = "/no/such/file: No such file or directory"
    with tempfile.TemporaryDirectory() as folder:
        script = Path(folder, "script")
        script.write_text("#!/no/such/file\n")
        script.chmod(0o755)
        loaded = built(folder, "-Wl,--dynamic-linker=/no/such/file")
        return "".join(refusal(program, why) for program in (script, loaded))


def scripts():
    """One whose interpreter is a script is run by that one's interpreter; one without any is refused."""
    with tempfile.TemporaryDirectory() as folder:
        inner, outer, bare, other = (Path(folder, name) for name in ("inner", "outer", "bare", "other"))
        inner.write_text("#!/bin/sh\nexec true\n")
        outer.write_text(f"#!{inner}\n")
        bare.write_text("exec true\n")
        other.write_bytes(b"MZ\0\0\0")
        for script in inner, outer, bare, other:
            script.chmod(0o755)
        ran = record(outer)
        wrong = refusal(bare, "it is a script without an interpreter's line")
        wrong += refusal(other, "it is no program of this machine")
    return wrong + differences(status=(ran.returncode, 0))


def flags_by(compiler):
    """What `./record --flags` says for a compiler."""
    how = {"capture_output": True, "text": True, "env": {**os.environ, "CXX": compiler}}
    return subprocess.run([ROOT / "record", "--flags"], **how)


def compilers():
    """One that isn't there, one with a quote that doesn't end, and one of several words."""
    whys = {
        "no-such-compiler -g": "no-such-compiler: No such file or directory",
        "g++ '": "CXX is g++ ': No closing quotation",
    }
    found = {name: flags_by(name) for name in (*whys, "g++", "env 'g++'")}
    lines = {name: (ran.returncode, ran.stdout + ran.stderr) for name, ran in found.items()}
    pairs = {name: (lines[name], (REFUSED, f"record: refused: {why}\n")) for name, why in whys.items()}
    return differences(**pairs, several=(lines["env 'g++'"], lines["g++"]), status=(lines["g++"][0], 0))


def suppressions_that_are_no_text():
    with tempfile.TemporaryDirectory() as folder:
        file = Path(folder, "known")
        file.write_bytes(b"Loop # a cache\n\xe9t\xe9 # another\n")
        ran = record("/bin/true", f"--suppress={file}")
    return differences(
        said=(ran.stderr, f"record: refused: {file}: byte 16 is not UTF-8\n"),
        status=(ran.returncode, REFUSED),
    )


def no_program():
    ran = record("/no/such/program")
    right = ran.returncode == 127 and ran.stderr == "record: /no/such/program: no such program\n"
    return "" if right else f"{ran.returncode} {ran.stderr}"


def changed_headers():
    """Each hook is refused on a header in which its place is changed."""
    base, atomic = (Path(hook_headers.folder_of("g++"), name).read_text() for name in hook_headers.HEADERS)
    wrong = []
    for text, edits, finish in (base, hook_headers.BASE, hook_headers.with_cells), (
        atomic,
        hook_headers.ATOMIC,
        str,
    ):
        hook_headers.edited(text, edits, "header")
        for edit in edits:
            changed = hook_headers.re.sub(edit.pattern, "changed", text, count=1)
            wrong += [edit.what] * (not refuses(lambda: hook_headers.edited(changed, edits, "header")))
        if finish is hook_headers.with_cells:
            wrong += ["cells"] * (
                not refuses(lambda: finish(text.replace("_Lp>*  _M_pi;", "_Lp>*  _M_block;", 1)))
            )
    return " ".join(wrong)


def refuses(call):
    try:
        call()
    except hook_headers.Refusal:
        return True
    return False


CHECKS = [
    without_types,
    without_types_with_hooks,
    static_program,
    own_malloc,
    sanitizer,
    of_32_bit,
    other_library,
    missing_interpreter,
    scripts,
    compilers,
    suppressions_that_are_no_text,
    no_program,
    changed_headers,
]
