"""How far above the exact peaks a program's peaks lie, and what that does to verdicts.

python3 tests/judge/nearness.py --seed 1 --networks 2000 PROGRAM [PROGRAM ..]

Networks are drawn as for run.py. The rating of each bus is out of the way, and
its peak rating is drawn evenly from 90 % to 110 % of the least whole peak that
would be right, so that verdicts hang on the peak. Counted are the buses whose
machines' least whole peak is at least 1,000 A, where an ampere of rounding says
little, and all peaks together at most 1,400,000 A: the initial current is then
below the highest rating, 1,000,000 A, and only a peak can be over. Of each
program are printed the mean, the 99th percentile and the greatest of the
machines' peaks' excess over the least whole peak, in percent, and how many
buses it calls over that the least whole peaks would not.
"""

import argparse
import subprocess
import sys
from random import Random

from accept import Study
from judge import Bench
from networks import TOP_RATING, any_network, with_ratings, write_file

BENCH = Bench()
LEAST_COUNTED, MOST_COUNTED = 1_000, 1_400_000


def rated(rng, draft):
    """The draft's text with peak ratings about its least whole peaks, and these."""
    study = Study().read(draft.file())[2]
    judges = BENCH.judges(study.network())
    least = [(judge.machines.peak_ceiling(), judge.converters.peak_ceiling()) for judge in judges]
    ratings = []
    for machines, converters in least:
        ratings.append((TOP_RATING, (machines + converters) * rng.randint(900, 1100) // 1000))
    return write_file(draft.tolerance, with_ratings(draft.rows, ratings)), least, ratings


class Figures:
    def __init__(self, program):
        self.program = program
        self.excess = []
        self.over = self.needless = 0

    def note(self, text, least, ratings):
        done = subprocess.run([self.program], input=text, stdout=subprocess.PIPE, check=True)
        rows = done.stdout.decode().split("\r\n")[:-1]
        assert len(rows) == len(least), rows[:1]
        for row, (machines, converters), (_, peak_rating) in zip(rows, least, ratings):
            if machines < LEAST_COUNTED or machines + converters > MOST_COUNTED:
                continue
            fields = row.split(",")
            self.excess.append(100 * (int(fields[5]) - machines) / machines)
            over = fields[7] == "O"
            self.over += over
            self.needless += over and machines + converters <= peak_rating

    def said(self):
        ranked = sorted(self.excess)
        mean = sum(ranked) / len(ranked)
        high = ranked[len(ranked) * 99 // 100]
        return (
            f"{self.program}: {len(ranked)} buses counted, excess {mean:.3f} % in the mean,"
            f" {high:.3f} % at the 99th percentile, {ranked[-1]:.3f} % at most;"
            f" over the peak rating {self.over}, of these needlessly {self.needless}"
        )


def main():
    parser = argparse.ArgumentParser(description=__doc__.splitlines()[0])
    parser.add_argument("--seed", type=int, default=1)
    parser.add_argument("--networks", type=int, default=2000)
    parser.add_argument("programs", nargs="+", metavar="PROGRAM")
    options = parser.parse_args()
    figures = [Figures(program) for program in options.programs]
    for n in range(options.networks):
        rng = Random(f"{options.seed}/{n}")
        text, least, ratings = rated(rng, any_network(rng)[1])
        for one in figures:
            one.note(text, least, ratings)
    for one in figures:
        print(one.said())


if __name__ == "__main__":
    sys.exit(main())
