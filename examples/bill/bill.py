#!/usr/bin/env python3
"""Makes a bill of what `pfx audit --csv` prints: the file, and the prices of a slot that was used and of one that was wasted."""

import collections
import csv
import decimal
import sys

path, of_used, of_wasted = sys.argv[1], decimal.Decimal(sys.argv[2]), decimal.Decimal(sys.argv[3])
used, wasted = collections.Counter(), collections.Counter()
with open(path, newline="", encoding="utf-8") as file:
    for row in csv.DictReader(file):
        used[int(row["place"])] += int(row["used"])
        wasted[int(row["place"])] += int(row["wasted"])
print("place,got,used,wasted,amount")
for place in sorted(used):
    amount = used[place] * of_used + wasted[place] * of_wasted
    print(f"{place},{used[place] + wasted[place]},{used[place]},{wasted[place]},{amount:.2f}")
