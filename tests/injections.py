"""Runs programs whose system calls on a file fail as a test wants it, by strace."""

from __future__ import annotations

import os
import subprocess

from harness import PATIENCE
from packages import lacking


def refusal() -> str:
    """Why nothing can be traced here: strace isn't there, or it may not trace. Nothing if it can."""
    words = ["strace", "-f", "-o", os.devnull, "true"]
    if why := lacking(["strace"]):
        return why
    return "strace may not trace here" if subprocess.run(words, capture_output=True, check=False).returncode else ""


def run(fault: str, path: str, program: str, *words: str) -> subprocess.CompletedProcess[str]:
    """Runs a program for which calls on the file of an absolute path fail: `read:error=EINTR:when=1` is the first read."""
    call = fault.split(":")[0]
    tracer = ["strace", "-f", "-qq", "-o", os.devnull, "-P", os.path.realpath(path), "-e", f"trace={call}", "-e", f"inject={fault}"]
    return subprocess.run([*tracer, program, *words], capture_output=True, text=True, check=False, timeout=PATIENCE)
