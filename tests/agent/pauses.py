"""How long it is before an agent tries again, and says the same again: parts of agent.py. The
clocks of these agents are many times as fast, and each looks at its own once a second at least."""
import time

from agents import desk_for, wait_until
from edges import plant_journal, services
from machine import Hindered, library_of
from world import Late, Wrong, answering

# How many times as fast the clock of an agent is.
FASTER = 40
# How many tries are seen. The last four pauses would be 128 to 1,024 seconds without a limit.
TRIES = 12
# The seconds by such a clock before the same trouble is said again.
TEN_MINUTES = 600
BROKEN = "web: this file is no whole journal"


def try_pauses(world):
    """A desk that is away is asked again after 30 seconds at most, however long it is away."""
    library, moments = library_of(world), []
    with desk_for(world, "pauses", *services(1, "web")) as desk, \
            answering(lambda _: moments.append(time.monotonic())) as port:
        agent = Hindered(desk, library, faster=FASTER, port=port)
        wait_until(f"{TRIES} tries", lambda: len(moments) >= TRIES or agent.must_run())
        agent.kill()
        pauses = [after - before for before, after in zip(moments, moments[1:])]
        # the agent may wake a second after its time, and two pauses be longer on a busy machine
        if sorted(pauses[:TRIES - 1])[-3] > 30 / FASTER + 1 + world.slowness:
            raise Late(f"it tried again after {pauses} seconds")


def try_said_again(world):
    """A journal that cannot be used is said again after ten minutes, and not before."""
    library, faster = library_of(world), 5 * FASTER
    with desk_for(world, "said-again", *services(1, "web")) as desk:
        (desk.folder / "journals").mkdir()
        plant_journal(desk, "another file")
        # from before it is said first: seen later, it would seem to be said again too soon
        begun = time.monotonic()
        agent = Hindered(desk, library, faster=faster)
        agent.wait_said(BROKEN, 2)
        took = time.monotonic() - begun
        agent.kill()
        if took < TEN_MINUTES / faster:
            raise Wrong(f"said again after {took * faster} seconds")
