#!/usr/bin/env python3
"""Runs each program of a folder in turn, so many times, and prints the least time of each line and its ratio to the fastest C."""
import os
import subprocess
import sys

folder, count, turns = sys.argv[1], int(sys.argv[2]), int(sys.argv[3])
programs = sorted(os.listdir(folder), key=lambda name: name != "rattle")
least, sums = {}, {}
for _ in range(turns):
    for name in programs:
        ran = subprocess.run([os.path.join(folder, name), str(count)], check=True, capture_output=True, text=True)
        if sums.setdefault("lines", ran.stdout) != ran.stdout:
            raise SystemExit(f"{name} has other numbers than {programs[0]}")
        for line in ran.stderr.splitlines():
            sort, time = line.rsplit(": ", 1)
            took = int(time.split()[0]) / count
            least[sort, name] = min(took, least.get((sort, name), took))
cpu = next((line.split(":")[1].strip() for line in open("/proc/cpuinfo") if line.startswith("model name")), "unknown")
print(f"{cpu}, {count} exchanges of each sort, least of {turns} turns")
for sort in dict.fromkeys(sort for sort, _ in least):
    fastest = min(time for (s, name), time in least.items() if s == sort and name != "rattle")
    times = ", ".join(f"{name} {least[sort, name]:.0f} ns" for name in programs)
    print(f"{sort}: {times}; ratio to the fastest C {least[sort, 'rattle'] / fastest:.2f}")
