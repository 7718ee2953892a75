#!/usr/bin/env python3
"""Tries over a thousand plans of a workshop, each in a map of its own, and tells the best.

Four pieces are cut on one saw and glued on one press, each some time after its cut. A plan is the order
of the cuts, that of the gluings, and the least number of minutes between two gluings. It counts where no
dates are wanted that cannot be, and where the saw and the press are surely free for each piece. The best is
the one that may be done first.

    sweep.py [--plans N] [--workers N] [--cluster ADDRESS | --cluster local]
    sweep.py --figures

A map is one process, so maps are tried side by side: by processes of this machine, or by the workers of a
cluster of dask.distributed (Debian's python3-distributed), over the same function. `local` makes a cluster
on this machine. On another one the client `tmm` and the program have to be there as well.
"""

import argparse
import itertools
import sys
import time
from concurrent.futures import ProcessPoolExecutor
from dataclasses import dataclass
from pathlib import Path
from typing import Any, Iterator, List, Optional, Sequence, Tuple

# the client of this checkout, where the example stands in one
sys.path.insert(0, str(Path(__file__).resolve().parents[1] / "clients" / "python"))

import tmm  # noqa: E402

# The least number of minutes from the cut of a piece to its gluing.
DRYING = {"bowl": 35, "lamp": 45, "desk": 60, "tray": 20}
# A cut takes at most 30 minutes, a gluing at most 50, and a minute later the machine is free.
CUT = 31
# With the shorter one the press may still be busy.
GLUE_GAPS = (46, 51)
GLUE = 51

MACHINES = """\
class saw saw-free saw-busy
class press press-free press-busy
token s0 saw-free
dist s1 start s0 0 0
token p0 press-free
dist p1 start p0 0 0
kind cut
kind cut-end
kind glue
kind glue-end
rule c1 cut 1 1 saw-busy if saw-free
rule c2 cut 20 30 cut-end if saw-free
rule c3 cut-end 1 1 saw-free
rule g1 glue 1 1 press-busy if press-free
rule g2 glue 45 50 glue-end if press-free
rule g3 glue-end 1 1 press-free
point done"""


@dataclass(frozen=True)
class Plan:
    """The orders of the cuts and of the gluings, and the least number of minutes between two gluings."""

    cuts: Tuple[str, ...]
    gluings: Tuple[str, ...]
    gap: int


@dataclass(frozen=True)
class Outcome:
    """When a plan may be done first, and None where it does not hold."""

    minutes: Optional[int]
    plan: Plan


def all_plans() -> Iterator[Plan]:
    """24 orders of the cuts, as many of the gluings, and two gaps: 1,152 plans."""
    for cuts, gluings, gap in itertools.product(
        itertools.permutations(DRYING), itertools.permutations(DRYING), GLUE_GAPS
    ):
        yield Plan(cuts, gluings, gap)


def script_of(plan: Plan) -> List[str]:
    """The plan as a script. Its last two lines ask what is broken, and when all is done."""
    lines = MACHINES.splitlines()
    for piece, minutes in DRYING.items():
        lines += [f"event cut-{piece} cut", f"event glue-{piece} glue"]
        lines += [f"dist dry-{piece} cut-{piece} glue-{piece} {minutes} *"]
        lines += [f"dist last-{piece} glue-{piece} done {GLUE} *"]
    for machine, order, gap in (("cut", plan.cuts, CUT), ("glue", plan.gluings, plan.gap)):
        for before, after in zip(order, order[1:]):
            lines.append(f"dist {machine}-{before}-first {machine}-{before} {machine}-{after} {gap} *")
    for piece in DRYING:
        lines.append(f"protect saw-{piece} saw-free cut-{piece} cut-{piece}")
        lines.append(f"protect press-{piece} press-free glue-{piece} glue-{piece}")
    return [*lines, "check", "bounds start done"]


def try_plan(plan: Plan) -> Outcome:
    """Gives the whole script to a new map, and reads when all may be done. A map ends with its script."""
    lines = script_of(plan)
    transcript = tmm.run_script(lines)
    check, bounds = transcript.replies[len(lines) - 1], transcript.replies[len(lines)]
    # by status 0 no line is refused, and none is answered `memory`
    holds = transcript.status == 0 and isinstance(check, tmm.Check) and not check.broken
    return Outcome(bounds.lower if holds and isinstance(bounds, tmm.Bounds) else None, plan)


def try_by_processes(plans: Sequence[Plan], workers: int) -> List[Outcome]:
    """By so many processes of this machine."""
    with ProcessPoolExecutor(workers) as pool:
        return list(pool.map(try_plan, plans, chunksize=8))


def try_by_cluster(plans: Sequence[Plan], workers: int, address: str) -> List[Outcome]:
    """By the workers of the cluster at this address; `local` is one of so many threads on this machine."""
    import distributed

    # it has no types
    connect: Any = distributed.Client
    # each map is a process of its own, so threads are enough to wait for them
    local = {"processes": False, "n_workers": 1, "threads_per_worker": workers, "dashboard_address": None}
    with connect(**local) if address == "local" else connect(address) as client:
        return list(client.gather(client.map(try_plan, plans)))


def tell(outcomes: Sequence[Outcome]) -> None:
    """Prints how many plans hold, and of those that may be done first the first one."""
    held = [(outcome.minutes, outcome.plan) for outcome in outcomes if outcome.minutes is not None]
    print(f"{len(outcomes)} plans, of which {len(held)} hold")
    if held:
        minutes, plan = min(held, key=lambda row: row[0])
        print(f"the best may be done {minutes} minutes after opening, with gluings {plan.gap} apart:")
        print(f"  cut {', '.join(plan.cuts)}")
        print(f"  glue {', '.join(plan.gluings)}")


def tell_figures(plans: Sequence[Plan]) -> None:
    """Prints how long the plans take by one to four processes."""
    alone = None
    for workers in range(1, 5):
        began = time.monotonic()
        try_by_processes(plans, workers)
        seconds = time.monotonic() - began
        alone = alone or seconds
        print(f"{workers} workers: {seconds:.1f} s, {len(plans) / seconds:.0f} plans a second, {alone / seconds:.1f} times as fast as one")


def main() -> None:
    parser = argparse.ArgumentParser(description="Tries plans of a workshop, and tells the best.")
    parser.add_argument("--plans", type=int, help="how many plans are tried; all, if it is left out")
    parser.add_argument("--workers", type=int, default=4, help="how many maps are tried at a time; 4, if it is left out")
    parser.add_argument("--cluster", metavar="ADDRESS", help="the scheduler of a cluster of dask.distributed, or `local`")
    parser.add_argument("--figures", action="store_true", help="tells how long one to four processes take")
    words = parser.parse_args()
    if words.workers < 1 or words.plans is not None and words.plans < 1:
        parser.error("--plans and --workers are at least 1")
    plans = list(itertools.islice(all_plans(), words.plans))
    if words.figures:
        tell_figures(plans)
    elif words.cluster:
        tell(try_by_cluster(plans, words.workers, words.cluster))
    else:
        tell(try_by_processes(plans, words.workers))


if __name__ == "__main__":
    main()
