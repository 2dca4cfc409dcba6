"""Times `work 1 COUNT` of a program beside both forms of its plain peer; see work.sh.

usage: work.py PROGRAM PEER OUTPUT RUNS"""
import os
import statistics
import sys

from timing import once


def timed(words, output):
    """The processor time of a run in milliseconds, and what it prints."""
    return 1000 * once(words, output=output, memory=False).seconds, open(output).read()


def main():
    program, peer, output, runs = sys.argv[1:]
    print(f"load {os.getloadavg()[0]:.1f} on {os.cpu_count()} processors, {runs} runs")
    for count in ("100", "1000", "10000"):
        rounds = []
        for _ in range(int(runs)):
            ours, text = timed([program, "work", "1", count], output)
            wallet, same = timed([peer, "1", count, "wallet"], output)
            coins, too = timed([peer, "1", count], output)
            assert text == same == too, count
            rounds.append((ours, wallet, coins))
        ours, wallet, coins = (min(times) for times in zip(*rounds))
        print(f"{count} coins: {ours:.1f} ms")
        for name, best, place in (("with its wallet", wallet, 1), ("coins alone", coins, 2)):
            median = statistics.median(times[0] / times[place] for times in rounds)
            print(f"  plain, {name}: {best:.1f} ms, ratio {ours / best:.2f}, median of the ratios {median:.2f}")


main()
