"""What the makers of stored texts share: a text is written, or with --check held to what is stored; below the repository, or
with --into FOLDER below that."""
import os, subprocess, sys

ROOT = os.path.dirname(os.path.dirname(os.path.abspath(__file__)))
CHECK = "--check" in sys.argv
WORDS = [word for word in sys.argv[1:] if word != "--check"]
INTO = ROOT
if "--into" in WORDS:
    at = WORDS.index("--into")
    INTO, WORDS = WORDS[at + 1], WORDS[:at] + WORDS[at + 2:]
RUNS = WORDS


def recorded_runs():
    """The paths of RUNS, or of all recorded runs that hold."""
    if RUNS:
        return RUNS
    run = subprocess.run([os.path.join(ROOT, "tests", "recorded")], stdout=subprocess.PIPE, text=True, check=True)
    return run.stdout.splitlines()


def store(name, lines):
    """The lines, as the file of this name."""
    path = os.path.join(INTO, name)
    text = "".join(line + "\n" for line in lines)
    if not CHECK:
        os.makedirs(os.path.dirname(path), exist_ok=True)
        with open(path, "w") as out:
            out.write(text)
    elif open(path).read() != text:
        sys.exit(f"{name} is not what {os.path.basename(sys.argv[0])} makes")
    return len(text)
