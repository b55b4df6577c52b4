"""What atomic-java answers where it is given no good source, or can't write what it has to: one status, and one clear
line wherever it isn't the sources that are judged."""
import os
import re
import signal
import subprocess
import time
from dataclasses import dataclass
from pathlib import Path

GOOD = "class A { @GuardedBy(\"this\") int v; /* atomic */ synchronized void f() { v++; v++; } }\n"
TOO_LARGE = "the sources are too large: memory ran out"
FAULT = re.compile(r"^\s+at |Exception in thread", re.MULTILINE)
DEEP = 2_000_000
NO_CHECKER = "/bin/false"
# a Java that is too old, and one without a compiler
OLD_JAVA = "#!/bin/sh\nexit 1\n"
BARE_JAVA = '#!/bin/sh\nunset JAVA_HOME\nexec java --limit-modules java.base "$@"\n'
# a checker that says when it begins, and doesn't answer
SLOW_CHECKER = "#!/bin/sh\necho $$ >> asked\nexec sleep 100\n"
SIGNALS = {signal.SIGINT: 130, signal.SIGTERM: 143}
MOST_SECONDS = 120.0


@dataclass(frozen=True)
class Input:
    """Words of a command line, and what comes of them: a status, and what the first line is, if that is told. `home` is
    where Java is said to be, `launcher` another name of the program."""

    name: str
    words: tuple[str, ...]
    status: int
    first: str = ""
    to: str = ""
    checker: str = ""
    home: str = ""
    launcher: str = ""


INPUTS = (
    Input("an empty file", ("empty.java",), 0),
    Input("a text that isn't Java", ("text.java",), 1, r"text\.java:1:1: error: .*"),
    Input("bytes that are no text", ("bytes.java",), 1, r"bytes\.java:1:1: error: unmappable character .*"),
    Input("a source in UTF-16", ("wide.java",), 1, r"wide\.java:1:1: error: .*"),
    Input("a source with a byte of zeros", ("zero.java",), 1, r"zero\.java:1:11: error: illegal character: .*"),
    Input("a name that means nothing", ("unknown.java",), 1, r"unknown\.java:1:11: error: .*, symbol: class B, .*"),
    Input("an import that only annotations name", ("imported.java",), 0),
    Input("an import that something else names", ("wanted.java",), 1, r"wanted\.java:1:9: error: package x does .*"),
    Input("a static import that isn't found", ("static.java",), 1, r"static\.java:1:16: error: package x does .*"),
    Input("a class twice", ("twice.java",), 1, r"twice\.java:2:1: error: duplicate class: A"),
    Input("lines that end as on Windows", ("windows.java",), 0),
    Input("a file by two names, and its folder", ("good.java", "./good.java", "link.java", "round"), 0),
    Input("a folder with a link to itself", ("round",), 0),
    Input("a link to a folder", ("there",), 0),
    Input("a name with a line's end", ("--strict", "two\nlines.java"), 0),
    Input("a class path that isn't there", ("--classpath", "nowhere.jar", "good.java"), 0),
    Input("a file that isn't there", ("nowhere.java",), 6, r"cannot read nowhere\.java"),
    Input("no name at all", ("",), 6, "cannot read "),
    Input("a name of blanks", (" ",), 6, "cannot read  "),
    Input("a name that doesn't end as a source's", ("text.txt",), 6, r"cannot read text\.txt: its name .*"),
    Input("a link to such a file", ("other.java",), 6, r"cannot read other\.java: its name .*"),
    Input("a class in two files", ("good.java", "second/A.java"), 1, r"second/A\.java:1:1: error: duplicate class: A"),
    Input("a folder named as an error", ("1:1: error: x",), 2, r"1:1: error: x/A\.java:1:7: note: .*"),
    Input("a class path that is no archive", ("--classpath", "text.jar", "good.java"), 1, r"error: .*text\.jar.*"),
    Input("a module's folder without a name", ("--patch-module", "x", "good.java"), 9, "javac refuses the words: .*"),
    Input("a library that isn't there", ("--library", "nowhere", "good.java"), 6, "cannot read nowhere"),
    Input("a library with a bad row", ("--library", "text.txt", "good.java"), 9, r"text\.txt:1: error: .*"),
    Input("logs where a file stands", ("--log", "good.java", "good.java"), 7, r"cannot write into good\.java"),
    Input("a skeleton over a source", ("--emit", "link.java", "good.java"), 7, "cannot write link.java: it is .*"),
    Input("logs over the sources", ("--log", ".", "good.java"), 7, r"cannot write into \.: a source would be lost"),
    Input("logs over the sources, by no name", ("--log", "", "good.java"), 7, "cannot write into : a source .*"),
    Input("words in a file", ("@words",), 0),
    Input("a file of words that isn't there", ("@nowhere",), 6, "cannot read nowhere"),
    Input("a name that begins as one of these", ("--", "@words.java"), 0),
    Input("an option that there isn't", ("--what", "good.java"), 9, "there is no option --what .*"),
    Input("an option without its value", ("good.java", "--emit"), 9, "--emit wants a value .*"),
    Input("no file", ("--public",), 9, "no file is named .*"),
    Input("a folder with no source but the module's", ("module",), 6, "no Java source in module"),
    Input("an expression that is nested too deeply", ("deep.java",), 8, TOO_LARGE),
    Input("a skeleton that can't be written", ("--emit", "/dev/full", "good.java"), 7, "cannot write /dev/full"),
    Input("an answer that can't be written", ("--public", "open.java"), 7, to="/dev/full"),
    Input("a checker that gives no answer", ("good.java",), 12, ".* gives no answer, but status 1", checker=NO_CHECKER),
    Input("a checker that isn't there", ("good.java",), 12, "cannot find atomic_why: .*", checker="/nowhere"),
    Input("a skeleton in a folder that isn't there", ("--emit", "no/where", "good.java"), 7, "cannot write no/where"),
    Input("logs that can't be written", ("--log", "/dev/full", "good.java"), 7, "cannot write into /dev/full.*"),
    Input("a launcher by a link with blanks", ("good.java",), 0, launcher="a link/to it"),
    Input("no Java where JAVA_HOME says", ("good.java",), 0, home="nowhere"),
    Input("a Java that is too old", ("good.java",), 12, home="old"),
    Input("a Java without a compiler", ("good.java",), 12, "atomic-java wants a JDK, .*", home="bare"),
)


def write(folder: Path) -> None:
    """The files that the inputs name."""
    texts = {
        "empty.java": b"",
        "text.java": b"This isn't Java.\n",
        "bytes.java": bytes(range(255, 127, -1)),
        "wide.java": GOOD.encode("utf-16"),
        "zero.java": GOOD.replace("{ @", "{ \0@", 1).encode(),
        "unknown.java": b"class A { B b; }\n",
        "imported.java": b"import x.GuardedBy; " + GOOD.encode(),
        "wanted.java": b"import x.B; class A { @B B v; }\n",
        "static.java": b"import static x.B.*; class A { }\n",
        "twice.java": (GOOD + GOOD).encode(),
        "windows.java": GOOD.replace("; ", ";\r\n").encode(),
        "good.java": GOOD.encode(),
        "two\nlines.java": GOOD.encode(),
        "open.java": b"class A { int v; public void f() { v++; } }\n",
        "words": b"--public\n\t'--quiet' \"two\\nlines.java\"",
        "@words.java": GOOD.encode(),
        "text.jar": b"This isn't Java.\n",
        "text.txt": b"This isn't Java.\n",
        "second/A.java": GOOD.encode(),
        "1:1: error: x/A.java": b"class A { volatile int v; /* atomic */ void f() { v++; } }\n",
        "module/module-info.java": b"module m { }\n",
        "round/B.java": GOOD.replace("class A", "class B").encode(),
        "old/release": b'JAVA_VERSION="11.0.2"\n',
        "deep.java": b"class A { int f() { return " + b"(" * DEEP + b"1" + b")" * DEEP + b"; } }\n",
    }
    for name, text in texts.items():
        path = folder / name
        path.parent.mkdir(exist_ok=True)
        path.write_bytes(text)
    for name, script in {"old/bin/java": OLD_JAVA, "bare/bin/java": BARE_JAVA, "slow": SLOW_CHECKER}.items():
        (folder / name).parent.mkdir(parents=True, exist_ok=True)
        (folder / name).write_text(script, encoding="utf-8")
        (folder / name).chmod(0o755)
    links = {"link.java": "good.java", "round/again": ".", "there": "round", "other.java": "text.txt"}
    for link, target in links.items():
        os.symlink(target, folder / link)


def wrong(given: Input, folder: Path, program: Path) -> str:
    """What is wrong with the answer to an input; nothing where it is right."""
    named = {"ATOMIC_WHY": given.checker, "JAVA_HOME": str(folder / given.home) if given.home else ""}
    environment = dict(os.environ, **{name: value for name, value in named.items() if value})
    program = link(folder / given.launcher, program) if given.launcher else program
    with open(folder / given.to if given.to else os.devnull, "wb") as to:
        done = subprocess.run(
            [str(program), *given.words], cwd=folder, env=environment, check=False, stderr=subprocess.PIPE,
            stdout=to if given.to else subprocess.PIPE,
        )  # fmt: skip
    told, beside = (done.stdout or b"").decode(errors="replace"), done.stderr.decode(errors="replace")
    if done.returncode != given.status:
        return f"status {done.returncode}, wanted {given.status}: {(told + beside)[-300:]}"
    elif FAULT.search(told + beside):
        return f"a trace: {(told + beside)[:300]}"
    lines = told.splitlines()
    if given.first and (not lines or not re.fullmatch(given.first, lines[0])):
        return f"the first line is {lines[:1]}, wanted {given.first}"
    if given.to and not beside.splitlines()[-1].startswith("cannot write the answer: "):
        return f"it isn't said that the answer can't be written: {beside[:300]}"
    if given.status > 2 and not given.to and len(lines) + len(beside.splitlines()) > 1:
        return f"more than one line: {(told + beside)[:300]}"
    return ""


def link(name: Path, program: Path) -> Path:
    """A link to the program."""
    name.parent.mkdir(exist_ok=True)
    name.symlink_to(program.resolve())
    return name


def is_there(process: str) -> bool:
    """Whether a process still runs."""
    try:
        os.kill(int(process), 0)
    except ProcessLookupError:
        return False
    return True


def hear_signals() -> None:
    """Ignores none of these signals. A shell's commands in the background ignore SIGINT, and hand that on."""
    for number in SIGNALS:
        signal.signal(number, signal.SIG_DFL)


def stopped(number: signal.Signals, folder: Path, program: Path) -> str:
    """What is wrong where a signal stops a run that waits for its checker: it ends, and so does the checker."""
    asked, before = folder / "asked", set(os.listdir(folder))
    environment = dict(os.environ, ATOMIC_WHY=str(folder / "slow"))
    words, nowhere = [str(program), "good.java"], subprocess.DEVNULL
    with subprocess.Popen(words, cwd=folder, env=environment, stdout=nowhere, preexec_fn=hear_signals) as run:
        end = time.monotonic() + MOST_SECONDS
        while not (asked.exists() and asked.read_text()) and time.monotonic() < end:
            time.sleep(0.05)
        run.send_signal(number)
        status = run.wait(MOST_SECONDS)
    processes = asked.read_text().split()
    asked.unlink()
    while any(map(is_there, processes)) and time.monotonic() < end:
        time.sleep(0.05)
    files, still = sorted(set(os.listdir(folder)) - before), [each for each in processes if is_there(each)]
    good = status == SIGNALS[number] and processes and not files and not still
    return "" if good else f"status {status}, files left: {files}, processes: {still}"


def all_wrong(folder: Path, program: Path) -> list[str]:
    """What is wrong with each of the answers that aren't right."""
    folder.mkdir(exist_ok=True)
    write(folder)
    told = {given.name: wrong(given, folder, program) for given in INPUTS}
    told |= {f"stopped by {each.name}": stopped(each, folder, program) for each in SIGNALS}
    return [f"{name}: {text}" for name, text in told.items() if text]
