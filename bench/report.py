#!/usr/bin/env python3
"""Medians and ratios of what bench/run wrote: report.py RESULTS. A line of RESULTS: size, who, what, seconds, bytes, peak memory in KB."""
import platform
import statistics
import sys

seconds, peaks, sizes = {}, {}, []
for line in open(sys.argv[1]):
    size, who, what, time, length, peak = line.split()
    if size not in sizes:
        sizes.append(size)
    seconds.setdefault((size, who, what), []).append(float(time) / int(length))
    peaks.setdefault((size, who, what), []).append(int(peak))


def speed(size, who, what):
    return 1e-6 / statistics.median(seconds[size, who, what])


print("%s, %s rounds each, medians, MB/s (a MB is 1,000,000 bytes)" % (platform.machine(), len(seconds[sizes[0], "ours", "read"])))
print()
print("| file | our read | rustsat's | ratio | two walks in C | ratio | C single pass | ratio | newline count | our write | rustsat's | ratio | no-negated: ours | rustsat's | ratio |")
print("|---" * 15 + "|")
for size in sizes:
    read, rust, walks, tight = speed(size, "ours", "read"), speed(size, "rustsat", "read"), speed(size, "ours", "walks"), speed(size, "ours", "tight")
    row = ["%.0f MB" % (int(size) / 1e6), "%.0f" % read, "%.0f" % rust, "%.2f" % (read / rust), "%.0f" % walks, "%.2f" % (read / walks), "%.0f" % tight, "%.2f" % (read / tight), "%.0f" % speed(size, "ours", "newlines")]
    for what in ("write", "write-plain"):
        ours, rust = speed(size, "ours", what), speed(size, "rustsat", what)
        row += ["%.0f" % ours, "%.0f" % rust, "%.2f" % (ours / rust)]
    print("| " + " | ".join(row) + " |")
print()
for size in sizes:
    ours, rust = (statistics.median(peaks[size, who, "read"]) / 1000 for who in ("ours", "rustsat"))
    growth = speed(sizes[0], "ours", "read") / speed(size, "ours", "read")
    print("%.0f MB: peak memory of the reading process %.0f MB with file and columns, rustsat's %.0f MB; time per byte %.2f of the smallest file's" % (int(size) / 1e6, ours, rust, growth))
