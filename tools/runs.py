"""What the checks of `examples` and `tests` have in common: runs of the program, compared with what they have to write."""
import difflib
import resource
import subprocess
import sys
import tempfile
from pathlib import Path

TOP = Path(__file__).resolve().parent.parent
PROGRAM = TOP / "crates" / "spike" / "out" / "spike"
SECONDS = 60


def called(words, folder, room=None):
    """What the program writes for these words, called in this folder, and its exit status. With `room` its output takes
    this many bytes, and then each write fails."""

    def limit():
        if room is not None:
            resource.setrlimit(resource.RLIMIT_FSIZE, (room, room))

    with tempfile.TemporaryFile() as output:
        # a write past the limit has to fail, and must not end the program by a signal
        done = subprocess.run([TOP / "spike", *words], cwd=folder, stdout=output, stderr=subprocess.DEVNULL, preexec_fn=limit,
                              restore_signals=False, timeout=SECONDS, check=False)
        output.seek(0)
        return output.read(), done.returncode


def differences(wanted, got, name):
    """The lines of a comparison of the bytes."""
    if wanted == got:
        return []
    sides = [text.decode("utf-8", "backslashreplace").splitlines() for text in (wanted, got)]
    return list(difflib.unified_diff(*sides, name, "written", lineterm="")) or ["the bytes differ at the end of a line"]


def faults(status, wanted, name, call):
    """What differs in a run, as lines. `call` gives what is written and the exit status."""
    try:
        got, ended = call()
    except (OSError, ValueError, subprocess.SubprocessError) as error:
        return [str(error)]
    found = [] if ended == status else [f"the status is {ended} and not {status}"]
    return found + differences(wanted, got, name)


def check(usage, runs, missed):
    """Makes the runs, each with how it is called and a function that gives what differs. Prints what failed, after the
    texts of `missed`, and gives the exit status. With `--built` the program has to be there."""
    if sys.argv[1:] not in ([], ["--built"]):
        sys.exit(usage)
    if not sys.argv[1:]:
        subprocess.run([TOP / "spike"], stdout=subprocess.DEVNULL, check=False)
    if not PROGRAM.is_file():
        print(f"there is no program: {PROGRAM.relative_to(TOP)}")
        print(f"0 passed, {len(runs)} failed")
        return 1
    return finished(runs, missed)


def finished(runs, missed):
    """Makes the runs, prints what failed, and gives the exit status."""
    passed = 0
    for call, run in runs:
        found = run()
        if found:
            missed.append("\n  ".join([call, *found]))
        else:
            passed += 1
    for text in missed:
        print("FAILED:", text)
    print(f"{passed} passed, {len(missed)} failed")
    return 1 if missed else 0
