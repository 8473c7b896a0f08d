"""What is done with several pages at once: their gains are shown, set, or copied, at one time."""
import time
from collections.abc import Callable
from concurrent.futures import ThreadPoolExecutor
from typing import NamedTuple, TypeVar

from .page import Fault, Gains, Matrix, Page
from .plan import Cell, Step, steps, steps_in, with_cells
from .texts import REFUSED, Refused

Result = TypeVar("Result")
RATE = 48_000
# How far ahead of the pages' next blocks a change is asked for, in sampling instants: a quarter of a second, 20 ms for
# each step, and 60 ms for each planned change that is read. A run takes a request within 10 ms, but shows its gains
# only 20 times in a second without the token; and the first step must not come before the last one is planned.
LEAD, LEAD_A_STEP, LEAD_A_READ = 12_000, 960, 2_880
# Pages that count the same time are apart by what their requests take: a second is more.
MOST_APART = 48_000
# A page may respond too late once or twice on a busy machine. After too many requests in a second the next one helps.
TRIES, REST_SECONDS = 4, 0.4


class Wanted(NamedTuple):
    """A change that is asked for: its time, or None for one that is chosen; how long it takes, in sampling instants;
    and whether what was planned from then on may be replaced."""

    at: int | None
    instants: int
    is_replacing: bool


class Plan(NamedTuple):
    """What a page is asked for, and what brings back what was planned before."""

    page: Page
    steps: list[Step]
    before: list[Step]


def on_all(pages: list[Page], work: Callable[[Page], Result]) -> list[Result]:
    """The results of the pages, which are asked side by side, so that their next blocks are those of one moment."""
    with ThreadPoolExecutor(len(pages)) as pool:
        return list(pool.map(work, pages))


def shown_together(pages: list[Page]) -> list[Gains]:
    """The gains of all pages, at one time if they count one."""
    found = on_all(pages, gains_of)
    if apart(found) > MOST_APART:
        return found
    at = max(gains.next_block_start for gains in found)
    return on_all(pages, lambda page: gains_of(page, at))


def gains_of(page: Page, at: int | None = None) -> Gains:
    """The gains that a page shows. Raises Refused, with its name, if it refuses again and again."""
    for left in reversed(range(TRIES)):
        try:
            return page.gains(at)
        except Fault as fault:
            if not left or not fault.is_passing():
                raise Refused(f"{page}: {fault}") from None
        time.sleep(REST_SECONDS)
    raise AssertionError


def apart(found: list[Gains]) -> int:
    """How far the next blocks of the pages are apart, in sampling instants."""
    starts = [gains.next_block_start for gains in found]
    return max(starts) - min(starts)


def time_for(pages: list[Page], wanted: Wanted) -> int:
    """The time of a change. Raises Refused if the pages count different times, so that no time is the same for all."""
    if wanted.at is not None:
        return wanted.at
    found = on_all(pages, gains_of)
    if apart(found) > MOST_APART:
        names = ", ".join(f"{page} is at {gains.next_block_start}" for page, gains in zip(pages, found))
        raise Refused(f"the pages count different times: {names}; runs with --clock tai count one")
    reads = sum(len(gains.planned) for gains in found)
    lead = LEAD + LEAD_A_STEP * steps_in(wanted.instants) + LEAD_A_READ * reads
    return max(gains.next_block_start for gains in found) + lead


def planned_from(page: Page, at: int) -> tuple[Gains, list[Step]]:
    """The gains of a page at a time, and the changes that are planned behind it. A change at the time itself is in
    force then."""
    gains = gains_of(page, at)
    return gains, [Step(moment, gains_of(page, moment).matrix) for moment in gains.planned if moment > at]


def changing(matrix: Matrix, planned: list[Step]) -> list[int]:
    """The times of the planned changes that change a gain. A change that was withdrawn leaves one that changes none."""
    before = [matrix, *(step.matrix for step in planned)]
    return [step.at for step, gains in zip(planned, before) if step.matrix != gains]


def set_cells(pages: list[Page], cells: list[Cell], wanted: Wanted) -> int:
    """Sets cells on all pages, and returns the time at which they are there. If a page refuses, none is changed."""

    def plan(page: Page, at: int) -> Plan:
        gains, later = planned_from(page, at)
        if not wanted.is_replacing and (moments := changing(gains.matrix, later)):
            names = ", ".join(map(str, moments))
            raise Refused(f"{page} has changes planned behind {at}, at {names}; --replace replaces them")
        try:
            ends = with_cells(gains.matrix, cells)
        except Refused as refused:
            raise Refused(f"{page}: {refused}") from None
        return Plan(page, steps(gains.matrix, ends, at, wanted.instants), [Step(at, gains.matrix), *later])

    return done_on_all(pages, plan, wanted)


def copy(source: Page, target: Page, wanted: Wanted) -> int:
    """Gives a page the gains of another, and all changes that are planned there. Returns the time from which on they
    are the same."""

    def plan(page: Page, at: int) -> Plan:
        given, later = planned_from(source, at)
        own, before = planned_from(page, at)
        if [len(row) for row in given.matrix] != [len(row) for row in own.matrix]:
            raise Refused(f"{page} has not as many outputs and inputs as {source}")
        return Plan(page, [Step(at, given.matrix), *later], [Step(at, own.matrix), *before])

    for _ in range(TRIES):
        at = time_for([source, target], wanted)
        done_on_all([target], plan, wanted._replace(at=at))
        # A change that the first page took meanwhile is not among those that were copied.
        (given, planned), (taken, copied) = planned_from(source, at), planned_from(target, at)
        if (given.matrix, planned) == (taken.matrix, copied):
            return at
    raise Refused(f"the gains of {source} change faster than they can be copied")


def done_on_all(pages: list[Page], plan: Callable[[Page, int], Plan], wanted: Wanted) -> int:
    """Asks all pages for what is planned for each, from one time on, and returns when the last step is there.

    If a page refuses, the others are brought back to what was planned before. A time that is chosen is chosen again
    then, if the reason passes.
    """
    for left in reversed(range(TRIES)):
        at = time_for(pages, wanted)
        plans = on_all(pages, lambda page: plan(page, at))
        outcomes = on_all(plans, put_steps)
        faults = [outcome.fault for outcome in outcomes if outcome.fault]
        if not faults:
            return plans[0].steps[-1].at
        kept = withdrawn(plans, outcomes)
        if kept or not left or wanted.at is not None or not all(is_passing(fault) for fault in faults):
            names = [reason(plan.page, told.fault) for plan, told in zip(plans, outcomes) if told.fault]
            raise Refused("; ".join(names + kept), max(getattr(fault, "exit_status", REFUSED) for fault in faults))
        time.sleep(REST_SECONDS)
    raise AssertionError


class Outcome(NamedTuple):
    """How many steps a page took, and why it took no more."""

    taken: int
    fault: Fault | Refused | None


def put_steps(plan: Plan) -> Outcome:
    """Asks a page for its steps, the first one first, since each replaces those behind it, up to one that is
    refused."""
    for taken, step in enumerate(plan.steps):
        if fault := put(plan.page, step):
            return Outcome(taken, fault)
    return Outcome(len(plan.steps), None)


def put(page: Page, step: Step) -> Fault | Refused | None:
    """Asks a page for a step, and again if it did not respond in time. Returns why it was refused."""
    for left in (True, False):
        try:
            page.change(step.at, step.matrix)
            return None
        except Fault as fault:
            if not left or fault.word not in ("no answer", "rate"):
                return fault
        except Refused as refused:
            return refused
        time.sleep(REST_SECONDS / 3)
    raise AssertionError


def reason(page: Page, fault: Fault | Refused) -> str:
    """Why a page did not take its steps. What one took that does not respond is not known."""
    return f"{page} refuses it: {fault}" if isinstance(fault, Fault) else f"{fault}; look at what it has planned"


def is_passing(fault: Fault | Refused) -> bool:
    return isinstance(fault, Fault) and fault.is_passing()


def withdrawn(plans: list[Plan], outcomes: list[Outcome]) -> list[str]:
    """Brings the pages that took a step back to what was planned before. Returns a text for each where that failed."""
    kept = []
    for plan, outcome in zip(plans, outcomes):
        # Of a page that broke off it is not known what it took.
        if outcome.taken or isinstance(outcome.fault, Refused):
            fault = next(filter(None, (put(plan.page, step) for step in plan.before)), None)
            if fault and not isinstance(outcome.fault, Refused):
                kept.append(f"{plan.page} keeps the change: {fault}")
    return kept
