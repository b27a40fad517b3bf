#!/usr/bin/env python3
"""Times the program on a rig beside `cat` of the bytes that it prints, each into a file, and prints the shortest of some rounds:
program.py PROGRAM RIG CHAINS"""
import os
import subprocess
import sys
import time

ROUNDS = 15


def shortest(command, given, out):
    best = float("inf")
    for _ in range(ROUNDS):
        with open(given, "rb") as source, open(out, "wb") as sink:
            began = time.perf_counter()
            subprocess.run(command, stdin=source, stdout=sink, check=True)
            best = min(best, time.perf_counter() - began)
    return best


def most_memory(program, rig, length):
    """The most memory that the program had at a time, in kB, when nearly all of its output was read."""
    with open(rig, "rb") as source:
        child = subprocess.Popen([program], stdin=source, stdout=subprocess.PIPE)
        left = length
        while left > 100_000:
            left -= len(os.read(child.stdout.fileno(), 50_000))
        with open(f"/proc/{child.pid}/status") as status:
            peak = next(int(line.split()[1]) for line in status if line.startswith("VmHWM"))
        child.stdout.read()
        child.wait()
    return peak


def main(program, rig, chains):
    out = chains + ".again"
    bases = sum(1 for _ in open(chains, "rb")) - 1
    listed = shortest([program], rig, out)
    with open(chains, "rb") as a, open(out, "rb") as b:
        if a.read() != b.read():
            sys.exit("the program printed something else")
    copied = shortest(["cat"], chains, out)
    peak = most_memory(program, rig, os.path.getsize(chains))
    os.remove(out)
    print(f"program: {bases} chains, {os.path.getsize(chains)} bytes in {listed * 1e3:.1f} ms, {listed / bases * 1e9:.0f} ns a chain; "
          f"cat of the same bytes {copied * 1e3:.1f} ms; ratio {listed / copied:.1f}; most memory {peak} kB")


main(*sys.argv[1:])
