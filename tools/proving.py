"""Calls the toolchain's compiler, which proves what it builds, on the crates of this repository: from nothing, each on one
processor, side by side, with neither the locks of `rt` nor its sums of sources."""
import contextlib, fcntl, hashlib, os, shutil, subprocess, sys, tempfile, time

from crates import PARTS, folder, is_program, libraries_of, rows_below
from processes import lanes

# What a check takes at most, in bytes of memory.
ROOM = 3_000_000_000


def toolchain():
    """The folder of the toolchain."""
    try:
        said = subprocess.run(["rt", "doc"], stdout=subprocess.PIPE, text=True, check=True).stdout
    except (OSError, subprocess.CalledProcessError) as why:
        sys.exit(f"the toolchain's command `rt` does not run: {why}")
    return os.path.dirname(said.strip())


KIT = toolchain()


@contextlib.contextmanager
def alone(path):
    """Keeps a folder from all others that take it so, and waits until none has it."""
    held = os.open(path, os.O_RDONLY)
    try:
        try:
            fcntl.flock(held, fcntl.LOCK_EX | fcntl.LOCK_NB)
        except BlockingIOError:
            print("another command builds the same: waiting until it is done", file=sys.stderr, flush=True)
            fcntl.flock(held, fcntl.LOCK_EX)
        yield
    finally:
        os.close(held)


def sources(crate):
    """A crate's code, definitions and proofs, by their files' names."""
    found = [f"{at}/{name}" for part in PARTS for at, _, names in os.walk(f"{folder(crate)}/{part}") for name in names]
    return {os.path.relpath(it, folder(crate)): open(it, "rb").read() for it in sorted(found)}


def chains(below):
    """The lines of each crate and of the longest chain of crates above it: a check takes in proportion to them."""
    found = {}
    for it in sorted(below, key=lambda it: -len(below[it])):
        lines = sum(text.count(b"\n") for text in sources(it).values())
        found[it] = lines + max((found[above] for above in found if it in below[above]), default=0)
    return found


def sums(rows):
    """A sum of each crate's sources, of what it stands on, and of the toolchain's identity."""
    with open(f"{KIT}/KIT-ID", encoding="utf-8") as text:
        kit, found = text.read(), {}
    for it in sorted(rows, key=lambda it: len(rows_below(it))):
        libraries = [found.get(name, name) for name in libraries_of(rows[it])]
        found[it] = hashlib.sha256(repr((kit, libraries, sources(it))).encode()).hexdigest()
    return found


def is_built(crate, total):
    """Whether a library stands there that was built of these sources."""
    try:
        with open(f"{folder(crate)}/out/rlib/built_of", encoding="utf-8") as text:
            return text.read() == total and os.path.isdir(f"{folder(crate)}/out/rlib/{crate}.rlib")
    except OSError:
        return False


def words(verb, crate, jobs=1):
    """The command that checks or builds a crate over the libraries below it, as they are built, by so many processes."""
    rows = rows_below(crate)
    found = [f"{KIT}/bin/rattle", verb, "--crate-name", crate, "src/main.rt" if is_program(crate) else "src/lib.rt"]
    for it in ["std", *libraries_of(rows[crate])]:
        at = f"{folder(it)}/out/rlib" if it in rows else f"{KIT}/rlibs"
        found += ["--extern", f"{it}={at}/{it}.rlib"]
    for it in [f"{KIT}/rlibs", *(f"{folder(it)}/out/rlib" for it in rows if it != crate)]:
        found += ["-L", f"dependency={it}"]
    found += ["--antt-project", f"{KIT}/rattle/logic/antt-project.json", "--logic-built", f"{KIT}/logic_built"]
    return [*found, "--jobs", str(jobs)]


def build_words(crate, jobs):
    """The command that proves and builds a crate: the object file of a program, or what can be cited of a library."""
    found = words("build", crate, jobs)
    if is_program(crate):
        return [*found, "--backend", "llvm", "--toolchain", f"{KIT}/toolchain", "-o", f"out/{crate}.o"]
    return [*found, "--statements", "-o", f"out/rlib/{crate}.rlib"]


def link_words(objects, program):
    """The command that links a program of the files that it was compiled to."""
    found = [f"{KIT}/bin/rattle-link", "--target", "x86_64-unknown-linux-gnu", "--toolchain", f"{KIT}/toolchain"]
    return [*found, "-o", program, *objects, f"{KIT}/c/libos_c.a", f"{KIT}/c/liblibc_c.a"]


def start(crate, jobs):
    """Starts the proof of a crate, whose words go to a file, as a group of its own. A library built before goes."""
    shutil.rmtree(f"{folder(crate)}/out/rlib", ignore_errors=True)
    os.makedirs(f"{folder(crate)}/out/rlib")
    said = tempfile.TemporaryFile("w+", errors="replace")
    ran = subprocess.Popen(build_words(crate, jobs), cwd=folder(crate), stdin=subprocess.DEVNULL, stdout=said,
                           stderr=subprocess.STDOUT, start_new_session=True)
    return ran, said


def prove_all(rows, running):
    """Proves crates, each once those below it are proved: whether all are. The one with the longest chain of others above
    it comes first, and a library that was built of the same sources is left as it is. Those that it is at stand in
    `running`; what is said of a crate that is not proved is printed."""
    below = {it: {*rows_below(it)} - {it} for it in rows}
    behind, most, totals = chains(below), lanes(ROOM), sums(rows)
    proved = {it for it in rows if is_built(it, totals[it])}
    left = sorted({*rows} - proved, key=lambda it: -behind[it])
    while left or running:
        ready = [it for it in left if below[it] <= proved]
        # All others wait for the longest chain. So its crate is proved by two processes at least, and by three where the
        # processors have nothing else to do: by the clock two take a fifth less, and three up to a half.
        many = min(most, 3, max(2, 1 + most - len(running) - len(ready)))
        for it in ready[:most - len(running)]:
            is_head = all(behind[it] >= behind[other] for other in [*left, *running])
            left.remove(it)
            running[it] = start(it, many if is_head else 1)
        while all(ran.poll() is None for ran, _ in running.values()):
            time.sleep(0.1)
        for it in [it for it, (ran, _) in running.items() if ran.poll() is not None]:
            ran, said = running.pop(it)
            if ran.returncode:
                said.seek(0)
                print(said.read(), f"{it} is not proved", sep="\n")
                return False
            with open(f"{folder(it)}/out/rlib/built_of", "w", encoding="utf-8") as text:
                text.write(totals[it])
            proved.add(it)
    return True
