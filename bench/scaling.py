#!/usr/bin/env python3
"""Times `clover replay` on scripts that grow, and prints accesses, times, ratios and peak memory.

Run it at the top of the repository after `rt ci` or `rt run` has built the program:
    python3 bench/scaling.py [PROGRAM]
Each workload has scripts of 1, 4 and 16 MB, the trace of 1 and 4 MB. Times are of the processor, the best of three
runs. Only ratios mean anything from one machine to another: a row's ratio is to the first row of its workload.
"""
import os
import random
import sys
import tempfile
from pathlib import Path
from typing import Callable, Iterator

MEGABYTE = 1 << 20


def pool(clients: int, slots: int) -> str:
    return f"pool nodes=16 buffers=4096 slots={slots} words=16 wear=5000 clients={clients} batch=16"


def short_lines() -> Iterator[str]:
    """Gets of one key by one client: as many calls as fit into a script."""
    yield "pool nodes=1 buffers=4 slots=2 words=2 wear=3 clients=1 batch=2"
    yield "call 1 put a =hello"
    while True:
        yield "call 1 get a"


def many_keys() -> Iterator[str]:
    """Gets and puts of 2,000 keys by one client, which has cursors of 64 of them."""
    draw = random.Random(1)
    yield pool(1, 2000)
    puts = 0
    while True:
        key = f"k{draw.randrange(2000)}"
        if puts < 60000 and draw.random() < 0.3:
            puts += 1
            yield f"call 1 put {key} =v{puts}{'.' * draw.randrange(100)}"
        else:
            yield f"call 1 get {key}"


def single_steps() -> Iterator[str]:
    """Sixteen clients, whose gets and puts of 1,000 keys overlap: one to four steps of one of them at a time."""
    draw = random.Random(2)
    yield pool(16, 1000)
    puts = [0] * 17
    while True:
        client, key = draw.randint(1, 16), f"k{draw.randrange(1000)}"
        if draw.random() < 0.8:
            yield f"step {client} {draw.randint(1, 4)}"
        elif puts[client] < 4000 and draw.random() < 0.3:
            puts[client] += 1
            yield f"begin {client} put {key} =v{puts[client]}"
        else:
            yield f"begin {client} get {key}"


def script(lines: Iterator[str], size: int) -> str:
    """The first of the lines, as many as have that size in bytes."""
    taken, length = [], 0
    for line in lines:
        length += len(line) + 1
        if length > size:
            break
        taken.append(line)
    return "\n".join(taken) + "\n"


def run(words: list[str], source: str, sink: str = os.devnull) -> tuple[float, float]:
    """Seconds of the processor, and the peak of memory in MB."""
    child = os.fork()
    if child == 0:
        os.dup2(os.open(source, os.O_RDONLY), 0)
        os.dup2(os.open(sink, os.O_WRONLY), 1)
        os.execv(words[0], words)
    _, status, usage = os.wait4(child, 0)
    if status != 0:
        sys.exit(f"{' '.join(words)} ended with {os.waitstatus_to_exitcode(status)}")
    return usage.ru_utime + usage.ru_stime, usage.ru_maxrss / 1024


def accesses(program: str, source: str) -> int:
    """How many accesses the program says that it made: the last line but one of what it prints."""
    with tempfile.NamedTemporaryFile() as file:
        run([program, "replay"], source, file.name)
        file.seek(max(0, os.path.getsize(file.name) - 100))
        return int(file.read().split()[-2])


WORKLOADS: list[tuple[str, Callable[[], Iterator[str]], list[str], list[int]]] = [
    ("short lines", short_lines, [], [1, 4, 16]),
    ("many keys", many_keys, [], [1, 4, 16]),
    ("single steps", single_steps, [], [1, 4, 16]),
    ("many keys, traced", many_keys, ["--trace"], [1, 4]),
]


def main() -> None:
    program = os.path.realpath(sys.argv[1] if len(sys.argv) > 1 else "crates/clover/out/clover")
    print(f"{'workload':18} {'bytes':>9} {'accesses':>9} {'seconds':>8} {'ratio':>6} {'MB':>7}")
    for name, lines, options, sizes in WORKLOADS:
        first = None
        for megabytes in sizes:
            text = script(lines(), megabytes * MEGABYTE)
            with tempfile.TemporaryDirectory() as room:
                source = f"{room}/script"
                Path(source).write_text(text)
                made = accesses(program, source)
                seconds, memory = min(run([program, "replay", *options], source) for _ in range(3))
            first = first or seconds
            print(f"{name:18} {len(text):9} {made:9} {seconds:8.3f} {seconds / first:6.2f} {memory:7.1f}", flush=True)


if __name__ == "__main__":
    main()
