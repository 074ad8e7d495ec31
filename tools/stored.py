"""Runs a program on the example that is stored beside its sources, as the gate does: crates/CRATE/args has its words, one a
line, data/ the files that lie where it runs, and stdout what it must print. Its status must be 0."""
import difflib, os, shutil, subprocess, tempfile

from crates import folder

# How long the example may take, in seconds, as in the gate.
MOST = 120


def stored(crate, name):
    """The text of a file beside a crate's sources, which is empty where there is none."""
    try:
        with open(f"{folder(crate)}/{name}", encoding="utf-8") as text:
            return text.read()
    except FileNotFoundError:
        return ""


def failure(crate, program):
    """What is wrong with what the program does on its stored example; nothing, where nothing is."""
    with tempfile.TemporaryDirectory(prefix="stored.") as room:
        if os.path.isdir(f"{folder(crate)}/data"):
            shutil.copytree(f"{folder(crate)}/data", f"{room}/data")
        os.makedirs(f"{room}/data", exist_ok=True)
        try:
            ran = subprocess.run([program, *stored(crate, "args").splitlines()], cwd=f"{room}/data", timeout=MOST,
                                 stdin=subprocess.DEVNULL, stdout=subprocess.PIPE, stderr=subprocess.PIPE, text=True,
                                 errors="replace")
        except (OSError, subprocess.TimeoutExpired) as why:
            return f"the stored example does not run: {why}"
    wanted = stored(crate, "stdout")
    if ran.returncode == 0 and ran.stdout == wanted:
        return ""
    changed = [it for it in difflib.ndiff(wanted.splitlines(), ran.stdout.splitlines()) if it[0] in "-+"]
    return "\n".join([f"the stored example comes out otherwise, with status {ran.returncode}", *changed, ran.stderr])
