"""A control: the tests' own worker, with the words of amo_worker. Once in each boot it goes on with
the registers of an earlier boot. It asks for no clearance."""

import os
import sys

os.environ["AMO_MISTAKE"] = "words_of_another_boot"
sys.path.insert(0, "/amo/tools/worker")

import stand_clearance
import stand_in

HAS_JOINED = "/tmp/has_joined"  # this file is gone after a boot
BEGIN = stand_in.begin_round


def begin_round(it) -> None:
    """Begins a round, unless this is the first call of the boot, and registers are there."""
    is_first = not os.path.exists(HAS_JOINED)
    open(HAS_JOINED, "a", encoding="ascii").close()
    if not is_first or not os.path.exists(f"{it.run}/words"):
        BEGIN(it)


if __name__ == "__main__":
    stand_in.begin_round = begin_round
    stand_clearance.MISTAKE = "no_clearance"
    sys.exit(stand_in.main(sys.argv[1:]))
