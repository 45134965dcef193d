#!/usr/bin/env python3
"""Writes log.csv, the log that log.m reads: a million requests of a million users, in a shuffled order."""

ROWS = 1_000_000

with open("log.csv", "w", newline="") as log:
    log.write("user,milliseconds\n")
    for row in range(ROWS):
        log.write(f"u{7 * row % ROWS},{row % 1000}\n")
