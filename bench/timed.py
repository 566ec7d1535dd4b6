"""Runs a program that times or counts calls of the libraries, for the scripts beside it."""
import argparse, os, shutil, subprocess, sys, tempfile

TOP = os.path.dirname(os.path.dirname(os.path.abspath(__file__)))


def words_of(about):
    """The words of the command line that each of these scripts takes."""
    words = argparse.ArgumentParser(description=about, formatter_class=argparse.RawDescriptionHelpFormatter)
    words.add_argument("--keep", action="store_true", help="leave the folder")
    return words


def is_kept(about):
    """Reads the words of the command line: whether the folder is to be left."""
    return words_of(about).parse_args().keep


def stood_on(uses):
    """The lines of crates.txt of these crates and of all that they stand on, in its order."""
    with open(os.path.join(TOP, "crates.txt")) as file:
        lines = {line.split(":")[0]: line for line in file if not line.startswith("#")}
    wanted = set()
    todo = list(uses)
    while todo:
        crate = todo.pop()
        if crate in lines and crate not in wanted:
            wanted.add(crate)
            todo += lines[crate].split(":")[1].split()
    return {crate: line for crate, line in lines.items() if crate in wanted}


def lay_out(folder, programs):
    """Copies of the crates that the programs need, and beside them each program as a crate. By its name it has its text and the crates that it uses."""
    lines = stood_on([crate for _, uses in programs.values() for crate in uses])
    for crate in lines:
        shutil.copytree(os.path.join(TOP, "crates", crate), os.path.join(folder, "crates", crate),
                        ignore=shutil.ignore_patterns("out"))
    with open(os.path.join(folder, "crates.txt"), "w") as file:
        file.writelines(list(lines.values()) + [f"{name}: {' '.join(uses)}\n" for name, (_, uses) in programs.items()])
    for name, (program, _) in programs.items():
        os.makedirs(os.path.join(folder, "crates", name, "src"))
        with open(os.path.join(folder, "crates", name, "src/main.rt"), "w") as file:
            file.write(program)


def lines_of(program, uses, keep, runs=1):
    """The lines that the program writes, once it is proved and built, in so many runs, each of a process of its own."""
    folder = tempfile.mkdtemp(prefix="erlay-bench-")
    crate = os.path.join(folder, "crates/timed")
    try:
        lay_out(folder, {"timed": (program, uses)})
        lines = []
        for command in [["rt", "run"]] + [["out/timed"]] * (runs - 1):
            ran = subprocess.run(command, cwd=crate, stdin=subprocess.DEVNULL,
                                 stdout=subprocess.PIPE, stderr=subprocess.PIPE, text=True)
            if ran.returncode != 0:
                sys.exit(ran.stdout + ran.stderr)
            lines += ran.stdout.splitlines()
        return lines
    finally:
        if keep:
            print(folder)
        else:
            shutil.rmtree(folder)
