"""What both reports say of the machine, the program and the commit and of each other, and how they are laid out."""

import datetime
import os
import platform
import subprocess
import textwrap

from program import ROOT


# Sections of docs/PEERS.md. bench/check writes that of lines, bench/values that of values.
LINES, VALUES = "## Lines of a stream", "## Values in Python"
FROM_TEXT, MEASURED = "## From text", "## How it was measured"


def section_of(path, heading):
    """Returns the lines of a section of a page, without the empty one at its end; none if it is not there."""
    lines = path.read_text(encoding="utf-8").splitlines() if path.exists() else []
    if heading not in lines:
        return []
    start = lines.index(heading)
    end = next((place for place in range(start + 1, len(lines)) if lines[place].startswith("## ")), len(lines))
    return lines[start : end - (lines[end - 1] == "")]


def paragraph(*texts):
    return [*textwrap.wrap(" ".join(texts), 118, break_long_words=False, break_on_hyphens=False), ""]


def said_by(*command):
    return subprocess.run(command, cwd=ROOT, text=True, capture_output=True, check=True).stdout.strip()


def commit():
    changed = said_by("git", "status", "--porcelain", "--untracked-files=no", "--", "crates", "crates.txt")
    return said_by("git", "rev-parse", "HEAD") + (" with changes" if changed else "")


def processor():
    with open("/proc/cpuinfo", encoding="utf-8") as lines:
        for line in lines:
            if line.startswith("model name"):
                return line.split(":", 1)[1].strip()
    return platform.processor() or platform.machine()


def conditions(given):
    """Returns pairs of a name and a value. `given` is the path of a program that was already built, or None."""
    built = given and f"{given.name}, already built: nothing says that it is proved, or of this commit"
    now = datetime.datetime.now(datetime.timezone.utc)
    return [
        ("date", now.strftime("%Y-%m-%d %H:%M UTC")),
        ("commit", commit()),
        ("program", built or "proved and built by rt"),
        ("processor", f"{processor()}, {os.cpu_count()} of them, one used; load at the start {os.getloadavg()[0]:.1f}"),
        ("kernel", f"{platform.system()} {platform.release()}"),
        ("rt version", said_by("rt", "version")),
    ]


# ---- whether the two reports are of one commit and one machine

REPORTS = ROOT / "bench" / "RESULTS.md", ROOT / "docs" / "PEERS.md"
ALIKE = "commit", "program", "processor", "kernel", "rt version"
OTHER = "- the other figures: "


def facts_of(path):
    """Returns what a report says of its conditions, by name; of sections with conditions of their own, which come first, the last counts."""
    lines = path.read_text(encoding="utf-8").splitlines()
    pairs = [line[2:].split(": ", 1) for line in lines if line.startswith("- ") and ": " in line]
    facts = {name: value for name, value in pairs if name in (*ALIKE, "date")}
    return facts | {"processor": facts.get("processor", "").split(";")[0]}


def compare_reports():
    """Writes into both reports whether they are of one commit, program and machine."""
    if not all(path.exists() for path in REPORTS):
        return
    facts = [facts_of(path) for path in REPORTS]
    others = [name for name in ALIKE if facts[0].get(name) != facts[1].get(name)]
    for place, path in enumerate(REPORTS):
        there = f"[{REPORTS[1 - place].name}]({os.path.relpath(REPORTS[1 - place], path.parent)})"
        when = facts[1 - place].get("date", "an unknown date")
        if others:
            said = f"{there}, of {when}, are **not of this run**: another {', '.join(others)}. Compare none with these"
        else:
            said = f"{there}, of {when}, are of the same commit, program and machine"
        lines = [line for line in path.read_text(encoding="utf-8").splitlines() if not line.startswith(OTHER)]
        last = max(index for index, line in enumerate(lines) if line.startswith("- rt version: "))
        path.write_text("\n".join([*lines[: last + 1], OTHER + said, *lines[last + 1 :]]) + "\n", encoding="utf-8")
