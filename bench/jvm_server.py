"""A JVM that compiles and runs programs (bench/jvm/Server.java), asked by lists of texts.

    with Server() as server:
        errors = server.compile(files)            the first error of each file, or nothing
        state = server.plain("p1", 3)
        state, steps, wait = server.steps("p1", "0 0 1", "")
"""
from __future__ import annotations

import glob
import os
import shutil
import struct
import subprocess
import tempfile
from types import TracebackType
from typing import Optional

CLASSES = os.path.join(os.path.dirname(os.path.abspath(__file__)), "jvm")
OPTIONS = ["-XX:+UseSerialGC", "-Xshare:auto", "-Xss2m", "-Xmx1g", "-Duser.language=en", "-XX:TieredStopAtLevel=1"]


class NoJava(Exception):
    """There is no JDK, or it is too old."""


def version() -> str:
    """What the JDK says that it is."""
    for word in ("java", "javac"):
        if shutil.which(word) is None:
            wanted = "a JDK 17 or later is wanted (Debian: apt-get install -y openjdk-17-jdk-headless)"
            raise NoJava(f"there is no {word}: {wanted}")
    told = subprocess.run(["java", "-version"], capture_output=True, text=True, check=False).stderr.splitlines()
    return told[1] if len(told) > 1 else "unknown"


class Server:
    """The classes are compiled into a temporary folder, which goes when the server ends."""

    def __init__(self) -> None:
        version()
        self.folder = tempfile.TemporaryDirectory(prefix="atomic-jvm-")
        files = sorted(glob.glob(os.path.join(CLASSES, "**", "*.java"), recursive=True))
        words = ["javac", "-nowarn", "-d", self.folder.name, *files]
        done = subprocess.run(words, capture_output=True, text=True, check=False)
        if done.returncode:
            self.folder.cleanup()
            raise NoJava("javac doesn't compile bench/jvm: " + (done.stderr.splitlines() or ["no reason told"])[0])
        self.process = self.started()

    def started(self) -> "subprocess.Popen[bytes]":
        words = ["java", *OPTIONS, "-cp", self.folder.name, "jvm.Server"]
        return subprocess.Popen(words, stdin=subprocess.PIPE, stdout=subprocess.PIPE, stderr=subprocess.DEVNULL)

    def __enter__(self) -> "Server":
        return self

    def __exit__(
        self, kind: Optional[type[BaseException]], error: Optional[BaseException], trace: Optional[TracebackType]
    ) -> None:
        assert self.process.stdin and self.process.stdout
        self.process.stdin.close()
        self.process.wait()
        self.process.stdout.close()
        self.folder.cleanup()

    def ask(self, *texts: str) -> list[str]:
        assert self.process.stdin and self.process.stdout
        self.process.stdin.write(struct.pack(">i", len(texts)))
        for text in texts:
            data = text.encode()
            self.process.stdin.write(struct.pack(">i", len(data)) + data)
        self.process.stdin.flush()
        return [self.process.stdout.read(self.number()).decode() for _ in range(self.number())]

    def number(self) -> int:
        assert self.process.stdout
        data = self.process.stdout.read(4)
        if len(data) < 4:
            raise EOFError("the JVM ended")
        return int(struct.unpack(">i", data)[0])

    def compile(self, files: dict[str, str], is_run: bool = True) -> dict[str, str]:
        words = [word for file in files.items() for word in file]
        return dict(zip(files, self.ask("compile", "yes" if is_run else "no", *words)))

    def plain(self, package: str, count: int) -> str:
        return self.ask("plain", package, str(count))[0]

    def real(self, package: str) -> list[str]:
        """The lines that the program prints."""
        return self.ask("real", package)[0].splitlines()

    def steps(self, package: str, threads: str, waiting: str) -> tuple[str, str, str]:
        state, steps, wait = self.ask("steps", package, threads, waiting)
        return state, steps, wait
