#!/usr/bin/env -S python3 -B
"""Which kms_local a script runs.

    tools/built.py [--proved | --quick | --program PATH]

prints the path of the proved build where one stands, and else that of the same code, compiled without proof. That is compiled once for the
sources as they are, and stays in crates/kms_local/out/unproved until a later one takes its place. With --proved the program is proved and
built first; with --quick the path is that of the quick build below, also where a proved one stands. It needs Python and Linux, and `rt`
where nothing that serves stands yet.

Two builds have no proof. The quick one is compiled by `rt try` of a kit of links, whose clang is tools/quick_clang: nothing is checked as it
runs. It is made where the kit is the one that this was tried with. Else, or where that fails, there is the build of `rt try` itself, which
checks memory as it runs and is many times slower. Of several calls one compiles, and the others wait for what it makes."""

import argparse
import datetime
import fcntl
import hashlib
import os
import pathlib
import shutil
import signal
import subprocess
import sys
import tempfile
import time

TOP = pathlib.Path(__file__).resolve().parent.parent
CONFIG = str(TOP / "examples" / "config.json")
CRATE = TOP / "crates" / "kms_local"
PROGRAM = str(CRATE / "out" / "kms_local")
UNPROVED = CRATE / "out" / "unproved"
COMPILE_SECONDS = 3600
QUICK_KIT = "rattle-kit-13f logic dac8208d650f15bf"  # the kit that tools/quick_clang was tried with
QUICK, CHECKED = "quick", "checked"
KINDS = {QUICK: "neither proved nor checked as it runs", CHECKED: "not proved; it checks memory as it runs, and is many times slower"}


class Failure(Exception):
    """What went wrong, in words."""


class TooLong(Failure):
    """A compiler that isn't done in time."""


def tell(line):
    """A line on standard error, with the script's name."""
    print(f"{os.path.basename(sys.argv[0])}: {line}", file=sys.stderr, flush=True)


def reason(error):
    """What an error of the system says, in words."""
    return f"{error.filename}: {error.strerror}" if error.filename else str(error)


def rt():
    """The command of the Rattle kit."""
    found = shutil.which("rt")
    if not found:
        raise Failure("rt is missing, the command of the Rattle kit")
    return found


def kit_name():
    """Which Rattle kit that is."""
    return subprocess.run([rt(), "version"], capture_output=True, text=True).stdout.strip()


def started(command, words, **how):
    """A process of `rt` in the program's crate."""
    return subprocess.Popen([command, *words], cwd=CRATE, stdin=subprocess.DEVNULL, **how)


def prove():
    """Proves and builds the program, where that isn't done, with the toolchain's progress on standard error."""
    tell("proves and builds kms_local and the crates below it")
    begin = time.monotonic()
    status = started(rt(), ["run", "--", "check", "--config", CONFIG], stdout=sys.stderr).wait()
    if status:
        raise Failure(f"kms_local wasn't proved and built: status {status}")
    tell(f"proved and built in {time.monotonic() - begin:.0f} s")


def sum_of_sources():
    """A checksum of all that is compiled, and of how."""
    total = hashlib.sha256()
    for path in [TOP / "crates.txt", TOP / "tools" / "quick_clang", *sorted((TOP / "crates").glob("*/src/**/*.rt"))]:
        text = path.read_bytes()
        total.update(f"{path.relative_to(TOP)} {len(text)}\n".encode() + text)
    return total.hexdigest()


def below(process):
    """The processes that a process started, and those that these did."""
    for children in pathlib.Path(f"/proc/{process}/task").glob("*/children"):
        for child in children.read_text(encoding="ascii").split():
            yield int(child)
            yield from below(child)


def running(process, words):
    """The file of the program that runs with these words below this process, where it does."""
    for child in below(process):
        found = pathlib.Path(f"/proc/{child}/cmdline").read_text(encoding="utf-8").split("\0")[:-1]
        if found[-len(words):] == words:
            return found[-len(words) - 1]
    return None


def copy_running(process, words, to):
    """Copies the program, once it runs with these words below this process, and gives whether it did before that process ended."""
    deadline = time.monotonic() + COMPILE_SECONDS
    while process.poll() is None and time.monotonic() < deadline:
        try:
            found = running(process.pid, words)
            if found:
                shutil.copyfile(found, to)
                return True
        except OSError:
            pass  # a process that has ended since
        time.sleep(0.1)
    return False


def compile_to(path, command):
    """Compiles the program without proof. `rt try` keeps no program, but runs it: it is copied while it waits for a connection."""
    words = ["serve", "--config", "config.json", "--listen", "127.0.0.1:0"]
    limits = ["--steps", "1000", "--seconds", "60"]
    part = path.with_suffix(".part")
    with tempfile.TemporaryFile("w+") as said:
        how = {"stdout": said, "stderr": subprocess.STDOUT, "start_new_session": True}  # so that Ctrl-C comes to it once, by this script
        process = started(command, ["try", *limits, "--data", f"config.json={CONFIG}", "--", *words], **how)
        try:
            if not copy_running(process, words, part):
                if process.poll() is None:
                    raise TooLong(f"kms_local isn't compiled after {COMPILE_SECONDS} s, the limit of tools/built.py. A second call begins anew")
                said.seek(0)
                raise Failure(f"kms_local wasn't compiled: {said.read().strip()}")
            part.chmod(0o755)
            part.replace(path)
        finally:
            part.unlink(missing_ok=True)
            process.terminate()
            process.wait()


def lay_quick_kit(folder):
    """The kit once more in a folder, as links, but for its clang, its AddressSanitizer, which is empty, and `rattle`, which would read all names
    once more."""
    kit = pathlib.Path(rt()).resolve().parent.parent
    for room in ["bin", "c", "toolchain/bin"]:
        (folder / room).mkdir(parents=True)
    for name in ["rt", "rtlib.py"]:  # which look for the rest of the kit where they stand
        shutil.copy(kit / "bin" / name, folder / "bin")
    (folder / "bin" / "rattle").symlink_to(shutil.which("true"))
    (folder / "c" / "asan.a").write_text("!<arch>\n", encoding="ascii")
    (folder / "toolchain" / "bin" / "clang").symlink_to(TOP / "tools" / "quick_clang")
    for room in ["", "bin", "c", "toolchain", "toolchain/bin"]:
        for path in (kit / room).iterdir():
            if not (folder / room / path.name).exists():
                (folder / room / path.name).symlink_to(path)


def compile_as(kind, path):
    """Compiles the program without proof, as a build of this kind."""
    if kind == QUICK and (found := kit_name()) != QUICK_KIT:
        raise Failure(f"that was tried with {QUICK_KIT}, and here is {found or 'another kit'}")
    tell(f"compiles kms_local without proof, once, in some two minutes: what that makes is {KINDS[kind]}. (--proved proves and builds it, which "
         "takes hours.)")
    if kind == CHECKED:
        compile_to(path, rt())
    else:
        with tempfile.TemporaryDirectory() as folder:
            lay_quick_kit(pathlib.Path(folder))
            compile_to(path, f"{folder}/bin/rt")


def compiled(name, kinds):
    """A build of the first of these kinds that can be made."""
    for kind in kinds:
        begin = time.monotonic()
        try:
            compile_as(kind, UNPROVED / f"{kind}-{name}")
        except (Failure, OSError) as failure:
            if kind == kinds[-1] or isinstance(failure, TooLong):
                raise
            tell(f"no {kind} build is made: {failure}")
            continue
        for older in UNPROVED.glob("*-*"):
            if not older.name.endswith(name):
                older.unlink()
        tell(f"compiled in {time.monotonic() - begin:.0f} s")
        return UNPROVED / f"{kind}-{name}"


def standing(name, kinds):
    """A build of one of these kinds that stands."""
    for kind in kinds:
        path = UNPROVED / f"{kind}-{name}"
        if path.exists():
            tell(f"runs kms_local as it was compiled without proof, {os.path.relpath(path)}: {KINDS[kind]}")
            return path
    return None


def unproved(*kinds):
    """The program, compiled without proof from the sources as they are, by one process at a time."""
    name = sum_of_sources()[:16]
    if path := standing(name, kinds):
        return str(path)
    try:
        UNPROVED.mkdir(parents=True, exist_ok=True)
        with open(UNPROVED / "lock", "w", encoding="ascii") as lock:
            fcntl.flock(lock, fcntl.LOCK_EX)
            return str(standing(name, kinds) or compiled(name, kinds))
    except OSError as error:
        raise Failure(f"kms_local can't be compiled: {reason(error)}") from None


def chosen(proved=False, program=PROGRAM):
    """The program that runs. Says which on standard error."""
    if proved:
        prove()
    if os.path.exists(program):
        made = datetime.datetime.fromtimestamp(os.path.getmtime(program))
        kind = "proved build" if program == PROGRAM else "build"
        tell(f"runs the {kind} of {made:%Y-%m-%d %H:%M}, {os.path.relpath(program)}")
        return program
    if program != PROGRAM:
        raise Failure(f"{program} isn't there")
    return unproved(QUICK, CHECKED)


def run(script):
    """Runs the main function of a script. SIGTERM ends it as SIGINT does, and a failure is told in words."""
    signal.signal(signal.SIGTERM, signal.default_int_handler)
    try:
        sys.exit(script())
    except Failure as failure:
        sys.exit(f"{os.path.basename(sys.argv[0])}: {failure}")
    except KeyboardInterrupt:
        sys.exit(130)


def main():
    parser = argparse.ArgumentParser(description=__doc__, formatter_class=argparse.RawDescriptionHelpFormatter)
    which = parser.add_mutually_exclusive_group()
    which.add_argument("--proved", action="store_true", help="prove and build the program first")
    which.add_argument("--quick", action="store_true", help="the quick build without proof, also where a proved one stands")
    which.add_argument("--program", default=PROGRAM, metavar="PATH", help="this program")
    words = parser.parse_args()
    print(unproved(QUICK) if words.quick else chosen(words.proved, words.program))


if __name__ == "__main__":
    run(main)
