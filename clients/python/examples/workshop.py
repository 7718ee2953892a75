#!/usr/bin/env python3
"""Plans two pieces in a small workshop, in minutes from 8:00, and makes room for an early courier.

The bowl and the lamp are turned on one lathe and painted in one booth. Each machine is taken by what
is done on it, and free again when that is done. The courier wants to come earlier than the plan
allows. The program shows what stands against that, finds out what gives way, and changes the plan.
"""

import sys
from pathlib import Path

# Where the package is not installed, it is in the folder above.
sys.path.append(str(Path(__file__).resolve().parents[1]))

import tmm  # noqa: E402

PAINTED_LAMP = "lamp-paint/paint-ends"
# The least number of minutes between the two paintings, and the minute at which the courier wants to come.
GAP = 45
WISH = 130


def declare_machines(plan: tmm.TimeMap) -> None:
    """The lathe is free from the beginning, the booth once it is warm. A job takes one and frees it again."""
    plan.class_("lathe", "lathe-free", "lathe-busy")
    plan.class_("booth", "booth-free", "booth-busy")
    plan.token("lathe-idle", "lathe-free")
    plan.dist("open", "start", "lathe-idle", 0, 0)
    plan.token("booth-warm", "booth-free")
    plan.dist("warm", "start", "booth-warm", 30, 30)

    for kind in ("turn", "turned", "paint", "painted"):
        plan.kind(kind)
    plan.rule("turn-takes", "turn", 1, 1, "lathe-busy", given="lathe-free")
    plan.rule("turn-ends", "turn", 20, 25, "turned", given="lathe-free")
    plan.rule("turn-frees", "turned", 1, 1, "lathe-free")
    plan.rule("paint-takes", "paint", 1, 1, "booth-busy", given="booth-free")
    plan.rule("paint-ends", "paint", 30, 40, "painted", given="booth-free")
    plan.rule("paint-frees", "painted", 1, 1, "booth-free")


def declare_jobs(plan: tmm.TimeMap) -> None:
    """What is done when. The booth is to be free for the lamp, which the courier takes when it is dry."""
    plan.event("bowl-turn", "turn")
    plan.dist("first", "start", "bowl-turn", 10, 10)
    plan.event("lamp-turn", "turn")
    plan.dist("second", "bowl-turn", "lamp-turn", 30, 40)
    plan.event("bowl-paint", "paint")
    plan.dist("bowl", "bowl-turn", "bowl-paint", 30, 35)
    plan.event("lamp-paint", "paint")
    plan.dist("gap", "bowl-paint", "lamp-paint", GAP, 60)
    plan.point("courier")
    plan.dist("dry", "lamp-paint", "courier", 50)
    plan.protect("booth-for-lamp", "booth-free", "lamp-paint", "lamp-paint")


def tell(changes: tmm.Changes) -> None:
    """Prints what an edit changed, but for the clips."""
    for premise in changes.erased:
        print(f"  erased: {premise}")
    for effect in changes.left:
        print(f"  no longer: {effect}")
    for effect in changes.entered:
        print(f"  now: {effect}")
    for broken in changes.broken:
        print(f"  broken: {broken.protection}")
        for blame in broken.blames:
            by = f" by {blame.by}" if blame.by else ""
            print(f"    {blame.token} {blame.cause.value}{by}")
    for protection in changes.mended:
        print(f"  mended: {protection}")


def in_words(step: tmm.Step) -> str:
    """Says a step as a bound on what comes later."""
    if step.side is tmm.Side.LOWER:
        return f"{step.premise}: {step.origin} is at least {-step.weight} after {step.target}"
    return f"{step.premise}: {step.target} is at most {step.weight} after {step.origin}"


def try_courier(plan: tmm.TimeMap, minute: int) -> int:
    """Asks the courier to come by this minute, and tells how many minutes that is too early."""
    print(f"can the courier come by {minute}?")
    try:
        plan.dist("hurry", "start", "courier", upper=minute)
    except tmm.RefusedForCycle as cycle:
        print(f"  no, {-cycle.sum} too early:")
        for step in cycle.steps:
            print(f"    {in_words(step)}")
        return -cycle.sum
    print("  yes")
    return 0


def spare_minutes(plan: tmm.TimeMap) -> int:
    """How much sooner the lamp may be painted, by what the end of that rests on."""
    spare = []
    print(f"why {PAINTED_LAMP}?")
    for reason in plan.why(PAINTED_LAMP):
        if isinstance(reason, tmm.PremiseReason):
            print(f"  {reason.premise} is declared")
        elif isinstance(reason, tmm.EffectReason):
            supporters = f" with {', '.join(reason.supporters)}" if reason.supporters else ""
            print(f"  {reason.effect} by {reason.rule} on {reason.event}{supporters}")
        else:
            print(f"  {reason.first} is at least {-reason.at_most} before {reason.second}")
            if reason.second == "lamp-paint":
                spare.append(-reason.at_most)
    return min(spare)


def set_gap(plan: tmm.TimeMap, minutes: int) -> bool:
    """Puts at least so many minutes between the two paintings. Tells whether nothing is broken then."""
    print(f"a gap of {minutes} instead:")
    tell(plan.erase("gap"))
    tell(plan.dist("gap", "bowl-paint", "lamp-paint", minutes, 60))
    broken = plan.check()
    print(f"  broken protections: {len(broken)}")
    return not broken


def main() -> None:
    with tmm.TimeMap() as plan:
        declare_machines(plan)
        declare_jobs(plan)
        print(f"the courier can come from {plan.bounds('start', 'courier').lower} on")

        if try_courier(plan, WISH) > 0:
            spare = spare_minutes(plan)
            # 5 minutes less would do for the courier, but then the booth is not free in time.
            if not set_gap(plan, GAP - 5):
                set_gap(plan, GAP - spare)
            missing = try_courier(plan, WISH)
            if missing > 0:
                try_courier(plan, WISH + missing)

        print("what is believed:")
        for row in plan.list():
            clipped = f", clipped by {row.clipped_by}" if row.clipped_by else ""
            print(f"  {row.earliest:3} {row.occurrence}: {row.what}{clipped}")
        answer = plan.ask("booth-free", "lamp-paint", "lamp-paint")
        print(f"is the booth free for the lamp? {answer.verdict.value}: {answer.supporter}")


if __name__ == "__main__":
    main()
