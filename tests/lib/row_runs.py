"""Runs of a program on rows, and where they are otherwise."""

import subprocess

SECONDS = 300


def where_they_differ(wanted, printed):
    """Names the first line at which two different texts differ, and shows both."""
    wanted, printed = wanted.split(b"\n"), printed.split(b"\n")
    at = next((i for i, pair in enumerate(zip(wanted, printed)) if pair[0] != pair[1]),
              min(len(wanted), len(printed)))
    shown = [repr(lines[at])[1:120] if at < len(lines) else "no such line" for lines in (wanted, printed)]
    return f"line {at + 1} must be {shown[0]} and is {shown[1]}"


def start(program, words, seconds=SECONDS, **streams):
    """Returns the ended program, or None where it does not end in time."""
    try:
        return subprocess.run([program, *words], stderr=subprocess.PIPE, timeout=seconds, **streams)
    except subprocess.TimeoutExpired:
        return None


def differences(ended, status, stdout, stderr, seconds=SECONDS):
    if ended is None:
        return [f"it does not end in {seconds} seconds"]
    found = []
    if ended.returncode != status:
        found.append(f"its status must be {status} and is {ended.returncode}")
    printed = ended.stdout or b""
    if not (stdout.startswith(printed) if status == 3 else stdout == printed):
        found.append(f"standard output: {where_they_differ(stdout, printed)}")
    if stderr is not None and ended.stderr != stderr:
        found.append(f"standard error: {where_they_differ(stderr, ended.stderr)}")
    return found


def run_row(program, tried, seconds=SECONDS):
    ended = start(program, tried.words, seconds, input=tried.stdin, stdout=subprocess.PIPE)
    return differences(ended, tried.status, tried.stdout, tried.stderr, seconds)
