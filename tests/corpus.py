#!/usr/bin/env python3
"""corpus.py [--dribble] PROGRAM

Runs PROGRAM (arguments may follow in the same word) on each job of the directory corpus beside
this file and compares what it writes, byte for byte, with the answer kept there. --dribble sends
each job through its pipe in pieces. Last line: `N passed, M failed`.
"""
import pathlib
import sys

import harness

JOBS = pathlib.Path(__file__).resolve().parent / 'corpus'
COUNT = 245


def run(command, dribble=False, wanted=lambda text: True):
    """Takes the jobs that are wanted."""
    tally = harness.Tally()
    jobs = sorted(JOBS.glob('*.job'))
    tally.equal('number of jobs', len(jobs), COUNT)
    for job in (job for job in jobs if wanted(job.read_bytes())):
        tally.equal(job.name, harness.output(command, job.read_bytes(), dribble),
                    job.with_suffix('.out').read_bytes())
    return tally


if __name__ == '__main__':
    sys.exit(run(*harness.arguments(__doc__)).finish())
