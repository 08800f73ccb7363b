"""Builds the programs that the benchmarks time.

Each is proved and built in a repository of its own. Where the environment names a folder by
IRRDESK_BENCH, that repository stands there and is kept, so that only what changed is built
again."""
import os
import re
import shutil
import subprocess
import sys

TOP = os.path.dirname(os.path.dirname(os.path.abspath(__file__)))
BENCH = os.path.join(TOP, "bench")
PARTS = ["src", "specs", "proofs"]


def libraries(path):
    """What a list such as crates.txt says: each crate and the libraries that it uses."""
    if not os.path.exists(path):
        return {}
    with open(path) as listed:
        lines = [line.split("#")[0].partition(":") for line in listed if line.split("#")[0].strip()]
    return {name.strip(): uses.split() for name, _, uses in lines}


PROGRAMS = libraries(os.path.join(BENCH, "programs.txt"))


def below(known, uses):
    """The crates of this repository that are used, and those that these use."""
    wanted, open_ends = set(), [use for use in uses if use in known]
    while open_ends:
        crate = open_ends.pop()
        if crate not in wanted:
            wanted.add(crate)
            open_ends += [use for use in known[crate] if use in known]
    return wanted


def read(path):
    with open(path) as source:
        return source.read()


def stamp(crate):
    path = os.path.join(crate, "out", "rlib", "stamp")
    return read(path) if os.path.exists(path) else ""


def bring(crate, folder):
    """Copies a crate into the folder, with the library that was built of it."""
    here, there = (os.path.join(top, "crates", crate) for top in [TOP, folder])
    for part in PARTS:
        shutil.rmtree(os.path.join(there, part), ignore_errors=True)
        if os.path.isdir(os.path.join(here, part)):
            shutil.copytree(os.path.join(here, part), os.path.join(there, part))
    if stamp(here) and stamp(here) != stamp(there):
        shutil.rmtree(os.path.join(there, "out"), ignore_errors=True)
        shutil.copytree(
            os.path.join(here, "out", "rlib"), os.path.join(there, "out", "rlib"), symlinks=True
        )


def lay_out(folder, name, uses, sources):
    """A crate of these files, over copies of the crates of this repository that it uses."""
    known = libraries(os.path.join(TOP, "crates.txt"))
    wanted = below(known, uses)
    for crate in wanted:
        bring(crate, folder)
    program = os.path.join(folder, "crates", name)
    for part in ["src", "specs"]:
        os.makedirs(os.path.join(program, part), exist_ok=True)
    for file, text in sources.items():
        with open(os.path.join(program, "src", file), "w") as out:
            out.write(text)
    listed = os.path.join(folder, "crates.txt")
    lines = libraries(listed) | {crate: known[crate] for crate in wanted} | {name: uses}
    with open(listed, "w") as out:
        out.writelines(f"{crate}: {' '.join(lines[crate])}\n" for crate in lines)
    return program


def crate_name(program):
    return re.sub(r"\W", "_", program)


def source_of(program):
    return read(os.path.join(BENCH, f"{program}.rt.txt"))


def build_ours(folder, program):
    """The program of bench/PROGRAM.rt.txt over this repository's crates."""
    folder = os.environ.get("IRRDESK_BENCH") or folder
    name = crate_name(program)
    crate = lay_out(folder, name, PROGRAMS[program], {"main.rt": source_of(program)})
    made = subprocess.run(
        ["rt", "run", "--jobs", "1"],
        cwd=crate,
        stdin=subprocess.DEVNULL,
        capture_output=True,
        text=True,
        check=False,
    )
    built = os.path.join(crate, "out", name)
    if not os.path.exists(f"{built}.stamp"):
        sys.exit(
            f"{(made.stdout + made.stderr)[-2000:]}\nthe program {program} over this repository's"
            " crates was not built"
        )
    return built


def build_plain(folder, source):
    """The plain program of this Rust file."""
    program = os.path.join(folder, "plain")
    subprocess.run(["rustc", "-O", "-o", program, source], check=True)
    return program


def build_c(folder, name, source, *libraries_used):
    """The plain program of this C file."""
    program = os.path.join(folder, name)
    subprocess.run(
        ["cc", "-O2", "-Wall", "-Wextra", "-o", program, source, *libraries_used], check=True
    )
    return program
