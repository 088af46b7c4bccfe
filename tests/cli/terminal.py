#!/usr/bin/env python3
# What the hints of `pq` add where standard error is a terminal, by a pseudo-terminal.
#
#   terminal.py                   prints the names of the cases
#   terminal.py NAME PROGRAM      prints what is wrong with a case
import os
import pty
import select
import signal
import subprocess
import sys
import tempfile
import time

here = os.path.dirname(os.path.realpath(__file__))
top = os.path.join(here, "..", "..")
ft06 = os.path.join(here, "limit-nodes-ft06.in")
three = os.path.join(top, "examples", "three-items.txt")
even = "20 19\n" + "2 2\n" * 20
further = ["--branching active needs", "--nodes N allows more, up to 1048560"]

# Words, input (a file, a text, or None for the terminal itself), status, what the terminal has to show, and what not.
cases = {
    "bad-words": (["--help"], three, 2, ["bad words", "the words that there are:", "pq solve knapsack [--queue"], []),
    "no-words": ([], three, 2, ["bad words", "pq drill"], ["reading"]),
    "node-limit": (["solve", "shop", "--nodes", "50"], ft06, 4, ["node limit: asked"] + further, ["--capacity"]),
    "node-limit-active": (
        ["solve", "shop", "--nodes=50", "--branching=active"], ft06, 4, further[1:], ["--branching active"]),
    "node-limit-knapsack": (
        ["solve", "knapsack", "--nodes", "9", "--queue", "plain"], even, 4, further[1:], ["--branching"]),
    "node-limit-greatest": (
        ["solve", "knapsack", "--nodes", "1048560", "--queue", "plain"], "40 39\n" + "2 2\n" * 40, 4,
        ["no option reaches further"], ["up to 1048560"]),
    "full": (
        ["solve", "knapsack", "--queue", "plain", "--capacity", "2"], even, 5, ["full at place", "up to 1048576"], []),
    "answer": (["solve", "knapsack", "--queue", "plain"], three, 0, [], ["pq:"]),
    "bad-input": (["audit"], three, 3, ["line 2: "], ["pq:"]),
    "waits": (["solve", "knapsack", "--queue", "plain"], None, 0, ["reading standard input", "value 7"], []),
}


def start(words, program, source, sink):
    """Starts the hints with standard error at a new terminal, which is the input too where there is no other."""
    main, terminal = pty.openpty()
    process = subprocess.Popen(
        ["bash", os.path.join(top, "dist", "hints"), program] + words,
        stdin=terminal if source is None else source,
        stdout=terminal if source is None else sink,
        stderr=terminal,
        start_new_session=True,
    )
    os.close(terminal)
    return process, main


def shown_by(main, process, stop):
    """What the terminal shows until the process ends, or until it shows the text `stop`."""
    shown = b""
    end = time.time() + 60
    while time.time() < end:
        ready = select.select([main], [], [], 0.1)[0]
        try:
            piece = os.read(main, 4096) if ready else b""
        except OSError:
            piece = b""
        shown += piece
        if stop is not None and stop in shown.decode():
            break
        if not piece and process.poll() is not None:
            break
    return shown.decode().replace("\r\n", "\n")


def run_case(name, program):
    words, given, status, wanted, unwanted = cases[name]
    with tempfile.TemporaryFile() as source, tempfile.TemporaryFile() as sink:
        if given is not None:
            source.write(open(given, "rb").read() if os.path.exists(given) else given.encode())
            source.seek(0)
        process, main = start(words, program, None if given is None else source, sink)
        shown = ""
        if given is None:
            shown = shown_by(main, process, "reading")
            os.write(main, open(three, "rb").read() + b"\x04")
        shown += shown_by(main, process, None)
    ended = process.wait(60)
    if ended != status:
        print("status", ended)
    for text in wanted:
        if text not in shown:
            print(f"does not say {text!r}: {shown!r}")
    for text in unwanted:
        if text in shown:
            print(f"says {text!r}: {shown!r}")


def run_stopped(program, which, status):
    """A program that waits for its input, stopped by a signal to the hints alone, ends with them."""
    process, main = start(["audit"], program, None, None)
    shown_by(main, process, "reading")
    time.sleep(0.3)
    children = subprocess.run(["ps", "-o", "pid=", "--ppid", str(process.pid)], stdout=subprocess.PIPE).stdout.split()
    os.kill(process.pid, which)
    if process.wait(60) != status:
        print("status", process.returncode)
    if not children:
        print("no program was running")
    for child in children:
        if os.path.exists(f"/proc/{int(child)}"):
            print("the program still runs")


stops = {"stopped": (signal.SIGTERM, 143), "interrupted": (signal.SIGINT, 130), "hung-up": (signal.SIGHUP, 129)}
if len(sys.argv) < 3:
    print("\n".join(list(cases) + list(stops)))
elif sys.argv[1] in stops:
    run_stopped(sys.argv[2], *stops[sys.argv[1]])
else:
    run_case(sys.argv[1], sys.argv[2])
