#!/usr/bin/env python3
"""Refuses each growth of memory of the program once, one number at a time, and looks at what it answers.

  bench/refused_memory.py [--program FILE] [--step N]

A small library in front of the C library's `malloc`, `calloc` and `realloc` refuses the call with a given number. For each
command below the program runs once for each number, until a run makes fewer calls. Each run has to end with its ordinary
status and text, or with status 11 and `out of memory` (behind `listening` at `serve`); and where it ends with 11, nothing was
saved. The peer of `sync` and of `serve` is the program with all its memory. Needs cc.
"""
import argparse, os, socket, subprocess, sys, tempfile, time

TOP = os.path.dirname(os.path.dirname(os.path.abspath(__file__)))

SHIM = r"""
#define _GNU_SOURCE
#include <dlfcn.h>
#include <stdlib.h>
#include <errno.h>

static long calls, refused = -1;
static int is_refused(void) {
    if (refused < 0) { const char *text = getenv("REFUSED"); refused = text ? atol(text) : 0; }
    return ++calls == refused;
}
void *malloc(size_t size) {
    static void *(*real)(size_t);
    if (!real) real = dlsym(RTLD_NEXT, "malloc");
    if (is_refused()) { errno = ENOMEM; return NULL; }
    return real(size);
}
void *realloc(void *old, size_t size) {
    static void *(*real)(void *, size_t);
    if (!real) real = dlsym(RTLD_NEXT, "realloc");
    if (is_refused()) { errno = ENOMEM; return NULL; }
    return real(old, size);
}
int posix_memalign(void **out, size_t align, size_t size) {
    static int (*real)(void **, size_t, size_t);
    if (!real) real = dlsym(RTLD_NEXT, "posix_memalign");
    return is_refused() ? ENOMEM : real(out, align, size);
}
void *aligned_alloc(size_t align, size_t size) {
    static void *(*real)(size_t, size_t);
    if (!real) real = dlsym(RTLD_NEXT, "aligned_alloc");
    if (is_refused()) { errno = ENOMEM; return NULL; }
    return real(align, size);
}
__attribute__((destructor)) static void tell(void) {
    const char *path = getenv("CALLS");
    if (!path) return;
    refused = 0;
    FILE *file = fopen(path, "w");
    if (file) { fprintf(file, "%ld\n", calls); fclose(file); }
}
""".replace("#include <errno.h>", "#include <errno.h>\n#include <stdio.h>")


def example(name):
    return os.path.join(TOP, "examples", name)


def free_port():
    with socket.socket() as s:
        s.bind(("127.0.0.1", 0))
        return s.getsockname()[1]


class Runs:
    def __init__(self, program, shim, folder):
        self.program, self.shim, self.folder = program, shim, folder

    def environment(self, number):
        return {**os.environ, "LD_PRELOAD": self.shim, "REFUSED": str(number), "CALLS": os.path.join(self.folder, "calls")}

    def calls(self):
        """How many calls the last run made, where it told so."""
        try:
            with open(os.path.join(self.folder, "calls")) as file:
                return int(file.read())
        except (OSError, ValueError):
            return None

    def over_input(self, words, path, number):
        with open(path, "rb") as file:
            run = subprocess.run([self.program, *words], stdin=file, stdout=subprocess.PIPE, env=self.environment(number), timeout=60)
        return run.returncode, run.stdout, None

    def exchange(self, command, number):
        """`sync` or `serve` with a refused growth, against the other one with all its memory."""
        address, out = f"127.0.0.1:{free_port()}", os.path.join(self.folder, "out")
        if os.path.exists(out):
            os.remove(out)
        serve = [self.program, "serve", address, example("theirs.pool"), out if command == "serve" else os.path.join(self.folder, "peer")]
        sync = [self.program, "sync", address, example("ours.pool"), out if command == "sync" else os.path.join(self.folder, "peer")]
        server = subprocess.Popen(serve, stdout=subprocess.PIPE, env=self.environment(number) if command == "serve" else None)
        line = server.stdout.readline()
        if command == "sync":
            run = subprocess.run(sync, stdout=subprocess.PIPE, env=self.environment(number), timeout=60)
            code, text = run.returncode, run.stdout
            if code != 0:
                # the peer may wait for a connection that never came
                time.sleep(0.05)
                try:
                    socket.create_connection(("127.0.0.1", int(address.split(":")[1])), 1).close()
                except OSError:
                    pass
            server.communicate(timeout=60)
        else:
            if line == b"listening\n":
                subprocess.run(sync, stdout=subprocess.DEVNULL, timeout=60)
            text = line + server.stdout.read()
            code = server.wait(timeout=60)
        saved = open(out, "rb").read() if os.path.exists(out) else None
        return code, text, saved


def main():
    parser = argparse.ArgumentParser(description=__doc__, formatter_class=argparse.RawDescriptionHelpFormatter)
    parser.add_argument("--program", default=os.path.join(TOP, "crates/erlay/out/erlay"))
    parser.add_argument("--step", type=int, default=1, help="refuse each so manieth call only")
    arguments = parser.parse_args()
    with tempfile.TemporaryDirectory() as folder:
        source, shim = os.path.join(folder, "refused.c"), os.path.join(folder, "refused.so")
        with open(source, "w") as file:
            file.write(SHIM)
        subprocess.run(["cc", "-O1", "-shared", "-fPIC", "-o", shim, source, "-ldl"], check=True)
        runs = Runs(os.path.abspath(arguments.program), shim, folder)
        cases = [
            ("make 4", lambda n: runs.over_input(["make", "4"], example("elements.txt"), n)),
            ("merge", lambda n: runs.over_input(["merge"], example("sketches.txt"), n)),
            ("ids", lambda n: runs.over_input(["ids", "0" * 15 + "1", "0" * 15 + "2"], example("ids.txt"), n)),
            ("pack", lambda n: runs.over_input(["pack"], example("messages.txt"), n)),
            ("sim", lambda n: runs.over_input(["sim"], example("script.txt"), n)),
            ("gen 40", lambda n: runs.over_input(["gen", "40"], os.devnull, n)),
            ("sync", lambda n: runs.exchange("sync", n)),
            ("serve", lambda n: runs.exchange("serve", n)),
        ]
        failed = 0
        for name, run in cases:
            plain = run(0)
            count = runs.calls()
            ordinary = refused = 0
            for number in range(1, count + 1, arguments.step):
                code, text, saved = run(number)
                front = b"listening\n" if name == "serve" and text.startswith(b"listening\n") else b""
                if (code, text, saved) == plain:
                    ordinary += 1
                elif (code, text, saved) == (11, front + b"out of memory\n", None):
                    refused += 1
                else:
                    failed += 1
                    print(f"{name}: call {number} refused: {code} {text[:80]} saved {saved is not None}")
            print(f"{name}: {count} calls, {refused} ended with 11, {ordinary} as ever")
        print("each answer is one of the two" if not failed else f"{failed} other answers")
        sys.exit(1 if failed else 0)


if __name__ == "__main__":
    main()
