"""Programs that answer what they are told to: a comparison has to tell those that answer wrongly."""
import pathlib
import subprocess
import sys
import tempfile


def stub(folder, written, errors, status):
    """The path of a program that takes its input and answers this, whatever its words are."""
    folder = pathlib.Path(folder)
    (folder / "written").write_text(written)
    (folder / "errors").write_text(errors)
    program = folder / "program"
    program.write_text(f'#!/bin/sh\ncat > /dev/null\ncat "{folder}/written"\ncat "{folder}/errors" >&2\nexit {status}\n')
    program.chmod(0o755)
    return program


def unseen(differs, written, errors, status):
    """Which answers `differs` takes for another, where this one is right: a text each."""
    first = written.splitlines(keepends=True)[0]
    answers = {
        "that writes nothing": ("", errors, status),
        "that writes a line twice": (first + written, errors, status),
        "that leaves the last line out": ("".join(written.splitlines(keepends=True)[:-1]), errors, status),
        "with another digit": (written.replace("0", "1", 1), errors, status),
        "with another status": (written, errors, status + 1),
    }
    if errors:
        answers["with another line on standard error"] = (written, errors.replace("2", "3", 1), status)
        answers["without the line on standard error"] = (written, "", status)
        answers["with two lines on standard error"] = (written, errors * 2, status)
    told = []
    with tempfile.TemporaryDirectory() as folder:
        if differs(stub(folder, written, errors, status)):
            told.append("a program that answers rightly is told")
        for name, answer in answers.items():
            if not differs(stub(folder, *answer)):
                told.append(f"a program {name} isn't told")
    return told


def unseen_runs(script, *ways):
    """With which words the script doesn't end with status 1 where its program answers wrongly: a text each."""
    told = []
    with tempfile.TemporaryDirectory() as folder:
        program = stub(folder, "something else\n", "", 0)
        for words in ways:
            run = subprocess.run([sys.executable, script, "--program", program, *words], capture_output=True, check=False)
            if run.returncode != 1 or b"Traceback" in run.stderr:
                told.append(f"{' '.join(words)} with a wrong program ends with status {run.returncode}: {run.stderr.decode()}")
    return told
