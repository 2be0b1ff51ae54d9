"""Runs a program on standard input, and prints the largest memory that it had, and what of it stands
above 16 MiB for each place of 4,096 by 4,096.

    resident.py PROGRAM WORD.. < input
"""
import resource
import subprocess
import sys

PLACES = 4096 * 4096

subprocess.run(sys.argv[1:], stdout=subprocess.DEVNULL, check=True)
most = resource.getrusage(resource.RUSAGE_CHILDREN).ru_maxrss * 1024
above = (most - 16 * 2**20) / PLACES
print(
    f"largest resident set at 4,096 by 4,096: {most / 2**20:.1f} MiB, "
    f"{above:.2f} bytes a place above 16 MiB"
)
