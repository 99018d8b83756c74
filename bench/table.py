"""Reads lines "test|peer|threads|nanoseconds|share" and prints, for each test, a row a peer that has it:
nanoseconds by thread count, and the ratio to libstdc++. A sample is clean where each thread had a processor
for 95 % of its time, all started together and no call was refused (else its share is 0); a number is the
lowest tenth of the clean samples, since other work on the machine adds to a sample, and - where there is
none."""
import collections
import sys

BASE = "libstdc++ shared_ptr"
THREADS = (1, 2, 4)

samples = collections.defaultdict(list)
for name in sys.argv[1:]:
    with open(name) as lines:
        for line in lines:
            test, peer, threads, nanoseconds, share = line.rstrip("\n").split("|")
            samples[test, peer, int(threads)].append((float(nanoseconds), float(share)))


def number(key):
    clean = sorted(ns for ns, share in samples[key] if share >= 95)
    return clean[len(clean) // 10] if clean else None


def cell(test, peer, threads):
    ns, base = number((test, peer, threads)), number((test, BASE, threads))
    if ns is None:
        return "-"
    if base is None:
        return f"{ns:.1f}"
    return f"{ns:.1f} ({ns / base:{'.2f' if ns / base >= 0.1 else '.4f'}})"


tests = list(dict.fromkeys(test for test, _, _ in samples))
peers = list(dict.fromkeys(peer for _, peer, _ in samples))
print(
    "| test | peer | " + " | ".join(f"{n} thread{'s' if n > 1 else ''}, ns (ratio)" for n in THREADS) + " |"
)
print("|---|---|" + "---|" * len(THREADS))
for test in tests:
    for peer in peers:
        if not any(samples[test, peer, n] for n in THREADS):
            continue
        cells = (cell(test, peer, threads) for threads in THREADS)
        print(f"| {test} | {peer} | " + " | ".join(cells) + " |")
