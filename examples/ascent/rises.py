"""The rise from level to level: python3 rises.py plain.csv"""
import csv
import sys

printed = {}
for row in csv.DictReader(open(sys.argv[1], encoding="utf-8")):
    if row["domain"] == "0":
        printed.setdefault(int(row["frame"]), []).append(int(row["number"]))
levels = [(frame, numbers[0]) for frame, numbers in printed.items()]  # the pressure comes first
for (before, low), (frame, high) in zip(levels, levels[1:]):
    print(frame, f"{(low - high) / 10 / (frame - before):.1f}")
