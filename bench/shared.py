"""What several scripts of this folder use: random paths of the machine, programs in Rust, C++ and C that are built for a run and
linked with the C library, and how programs are timed and counted. The C library is in the folder that WAX_LIB_DIR names, or else in
target/library, which `./library` makes."""
import filecmp
import os
import random
import re
import shutil
import subprocess
import sys
import time

BENCH = os.path.dirname(os.path.realpath(__file__))
TOP = os.path.dirname(BENCH)
GLOBS = os.path.realpath(os.environ.get("GLOBS", f"{TOP}/globs"))
PROVED = f"{TOP}/crates/globs/out/globs"
LIBRARY = os.path.abspath(os.environ.get("WAX_LIB_DIR") or f"{TOP}/target/library")
REGISTRY = "/usr/share/cargo/registry"
UNPROVED = f"{TOP}/target/unproved/wax_c.o"

SOURCES = f"""[source.crates-io]
replace-with = "debian"

[source.debian]
directory = "{REGISTRY}"
"""


# --- paths and expressions


def paths_of_usr(count):
    """Returns up to `count` random paths of /usr that are text, without the `/` at their beginning."""
    found = subprocess.run(["find", "/usr", "-mindepth", "1", "-printf", "%p\n"], capture_output=True, check=False).stdout
    paths = [path[1:] for path in found.decode(errors="replace").splitlines() if "\ufffd" not in path]
    return random.sample(paths, min(count, len(paths)))


def paths_of_machine():
    """Returns the paths of this machine that are text, as bytes."""
    find = ["find", "/", "-xdev", "-mindepth", "1", "-not", "-path", "/proc/*", "-printf", "%P\\n"]
    found = subprocess.run(find, stdout=subprocess.PIPE, stderr=subprocess.DEVNULL, check=False).stdout.split(b"\n")
    return [path for path in found if path and "\ufffd" not in path.decode(errors="replace")]


def chosen(paths, count):
    """Returns `count` of the paths: spread evenly over them if they are more, and repeated if they are fewer."""
    if count < len(paths):
        return [paths[number * len(paths) // count] for number in range(count)]
    return [paths[number % len(paths)] for number in range(count)]


def expressions():
    """Returns each expression of bench/expressions, and the regex beside it."""
    with open(f"{BENCH}/expressions", encoding="utf-8") as file:
        return [line.rstrip("\n").split("\t") for line in file]


def write_lines(path, lines):
    with open(path, "wb") as file:
        file.writelines(line + b"\n" for line in lines)


def write(path, text):
    os.makedirs(os.path.dirname(path), exist_ok=True)
    with open(path, "w", encoding="utf-8") as file:
        file.write(text)
    return path


# --- programs that are built for a run


def missing_crates(names):
    """Returns the Debian packages that aren't installed and without which no program can use these crates."""
    found = [] if shutil.which("cargo") else ["cargo"]
    crates = os.listdir(REGISTRY) if os.path.isdir(REGISTRY) else []
    return found + [f"librust-{it}-dev" for it in names if not any(re.match(rf"{it}-\d", name) for name in crates)]


def rust_program(name, crates, room):
    """Builds bench/NAME.rs with the crate in rust/ and with these lines of dependencies, and returns the path of the program."""
    package = f'[package]\nname = "{name}"\nversion = "0.0.0"\nedition = "2021"\n'
    binary = f'[[bin]]\nname = "{name}"\npath = "{BENCH}/{name}.rs"\n'
    needs = "\n".join(["[dependencies]", *crates, 'wax = { path = "rust" }', ""])
    write(f"{room}/Cargo.toml", f"{package}\n{binary}\n{needs}")
    write(f"{room}/.cargo/config.toml", SOURCES)
    shutil.copytree(f"{TOP}/rust", f"{room}/rust", ignore=shutil.ignore_patterns("target", "Cargo.lock"), dirs_exist_ok=True)
    settings = {**os.environ, "CARGO_TARGET_DIR": f"{room}/target", "WAX_LIB_DIR": LIBRARY}
    words = ["cargo", "build", "--quiet", "--offline", "--release"]
    if subprocess.run(words, cwd=room, env=settings, stdin=subprocess.DEVNULL, check=False).returncode:
        sys.exit(1)
    return f"{room}/target/release/{name}"


def missing_headers(compiler, header, package):
    """Returns the Debian packages that aren't installed and without which no program in C or C++ can use a library."""
    found = [] if shutil.which(compiler) else [compiler]
    return found + ([] if os.path.exists(f"/usr/include/{header}") else [package])


def c_program(source, words, room):
    """Builds a program in C or C++ of this folder, with further words for the compiler, and returns its path."""
    made = f"{room}/{os.path.splitext(source)[0]}"
    compiler = ["g++", "-std=c++17"] if source.endswith(".cc") else ["gcc", "-std=c11"]
    subprocess.run([*compiler, "-O2", "-Wall", "-Wextra", "-o", made, f"{BENCH}/{source}", *words], check=True)
    return made


def library_note():
    """Returns a line that says whether the C library was proved, or exits if it isn't there."""
    archive = f"{LIBRARY}/libwax.a"
    if not os.path.exists(archive):
        sys.exit(f"there is no {archive}: run `make library`, or `./library --unproved`")
    return f"C library: {'NOT proved, so it checks each access and is slower' if is_unproved(archive) else 'the proved one'}"


def is_unproved(archive):
    """Returns whether the archive has what `./quick wax_c` built."""
    if not os.path.exists(UNPROVED):
        return False
    with open(archive, "rb") as whole, open(UNPROVED, "rb") as part:
        return part.read() in whole.read()


def globs_note():
    """Returns a line that says whether `globs` is the proved program, or exits if it isn't there."""
    if not shutil.which(GLOBS):
        sys.exit(f"there is no program {GLOBS}: run `make globs`, or `make quick` to build it without a proof")
    is_proved = os.path.exists(PROVED) and filecmp.cmp(GLOBS, PROVED, shallow=False)
    kind = "the proved program" if is_proved else "NOT the program that make globs proves (that of make quick is slower)"
    return f"globs: {kind}"


# --- what they take


def run(words, given=os.devnull, out=os.devnull):
    """Runs a program. Returns the seconds of the processor and of the clock."""
    with open(given, "rb") as read, open(out, "wb") as written:
        start = time.monotonic()
        process = subprocess.Popen(words, stdin=read, stdout=written, stderr=subprocess.DEVNULL)
        _, status, used = os.wait4(process.pid, 0)
        process.returncode = os.waitstatus_to_exitcode(status)
    return used.ru_utime + used.ru_stime, time.monotonic() - start


def instructions(words, given=os.devnull, only=None):
    """Returns the machine instructions of a program, or of its function `only`; or None without valgrind."""
    if not shutil.which("valgrind"):
        return None
    valgrind = ["valgrind", "--tool=callgrind", "--callgrind-out-file=/dev/null"]
    valgrind += [f"--toggle-collect={only}*"] if only else []
    with open(given, "rb") as read:
        ran = subprocess.run([*valgrind, *words], stdin=read, stdout=subprocess.DEVNULL, stderr=subprocess.PIPE, check=True)
    return int(re.search(rb"Collected : (\d+)", ran.stderr)[1])


def table_head(titles):
    return f"| {' | '.join(titles)} |\n|{'---|' * len(titles)}"


def table_row(cells):
    return f"| {' | '.join(cells)} |"
