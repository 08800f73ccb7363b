"""The door with uvloop, where that is installed, and without it."""

import importlib.util

import pytest

from checks.door import worlds
from checks.door.opened import Opened, Registries
from checks.running import Trial, expect

WITHOUT = (
    "import runpy, sys; sys.modules['uvloop'] = None; sys.argv[0] = 'irr'; "
    "runpy.run_module('irr', run_name='__main__')"
)


@pytest.mark.parametrize("loop", ["asyncio", "uvloop"])
def test_it_answers_with_each_loop(trial: Trial, loop: str) -> None:
    if loop == "uvloop" and not importlib.util.find_spec("uvloop"):
        pytest.skip("uvloop is not here")
    start = ("-m", "irr") if loop == "uvloop" else ("-c", WITHOUT)
    with Registries(trial, f"with-{loop}", worlds.DUMP, replicas=1) as registries:
        with Opened(trial, f"door-{loop}", registries.words, start=start) as door:
            with open(f"/proc/{door.process.pid}/maps", encoding="utf-8") as maps:
                expect("uvloop" in maps.read(), loop == "uvloop", "whether uvloop is used")
            expect(door.whois("AS1"), worlds.AS1 + b"\n", "the registry's dialect")
            expect(door.whois("!!\n!gAS1\n!q\n")[:1], b"A", "IRRd's")
            expect(worlds.AS1 in door.whois("-r AS1"), True, "RIPE's")
            expect(door.http("GET", "/dump")[2][-9:], b"% end 19\n", "the dump")
            many = "password: bc\n\n" + "".join(
                f"as-set: AS-M{n}\nmnt-by: ROOT-MNT\nsource: TEST\n\n" for n in range(700)
            )
            expect(door.submit(many)[2].splitlines()[-1], b"% items 700", "a submission in parts")
            registries.kill(1)
            expect(door.whois("AS1"), worlds.AS1 + b"\n", "with the replica gone")
            peers = [door.connect(door.whois_port, 2) for _ in range(60)]
            for peer in peers:
                peer.close()
            expect(door.whois("AS-M699")[:7], b"as-set:", "afterwards")
            expect("Traceback" in door.words_reported(), False, door.words_reported())
