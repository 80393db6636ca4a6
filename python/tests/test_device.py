"""The package against the library: python -m unittest in the folder python/ (DCD_LIBRARY names the shared object)."""
import unittest

from dcd import AccessRefused, BadHead, Change, Device, Extent, Kind, LiveTag, Policy, Refused, Region

MIB = 1 << 20
TAG = bytes([0x77]) + bytes(15)


def device() -> Device:
    regions = [Region(1, 16 * MIB, MIB, MIB), Region(1, 16 * MIB, MIB, MIB, handle=1, shareable=True)]
    return Device(2, regions, [[0, 1 << 28], [1 << 30, (1 << 30) + (1 << 28)]])


class Lives(unittest.TestCase):
    def test_what_was_opened(self) -> None:
        with device() as it:
            self.assertEqual([r.shareable for r in it.regions()], [False, True])
            self.assertEqual(it.bases(), [[0, 1 << 28], [1 << 30, (1 << 30) + (1 << 28)]])
            state = it.state()
            self.assertEqual((state.granules, state.free, state.bytes, state.hosts), (32, 32, 32 * MIB, 2))
            self.assertEqual(it.hosts[0].get_dynamic_capacity_configuration()[1][0], 1 << 28)

    def test_a_bad_base(self) -> None:
        with self.assertRaises(BadHead) as told:
            Device(1, [Region(1, MIB, MIB)], [[5]])
        self.assertEqual((told.exception.fault, told.exception.cause), ("BadConfig", 2))

    def test_an_offer_is_accepted(self) -> None:
        with device() as it:
            host = it.hosts[1]
            it.manager.initiate_dynamic_capacity_add(1, 0, 2 * MIB)
            self.assertEqual(it.step().logs, (1,))
            self.assertEqual(it.step().runs, ())
            self.assertEqual(host.records()[0].kind, Kind.ADD_CAPACITY)
            self.assertEqual([o.offer for o in host.offers()], [0])
            extents = host.accept()
            run, = it.step().runs
            self.assertEqual((run.change, run.host, run.dpa, run.length, run.media), (Change.GAINED, 1, 1 << 30, 2 * MIB, 0))
            self.assertEqual(it.step().logs, ("manager",))
            self.assertEqual(host.extents(), extents)
            self.assertEqual(host.get_dynamic_capacity_extent_list(), extents)
            host.store(extents[0].dpa + 8, 42)
            self.assertEqual(host.load(extents[0].dpa + 8), 42)
            self.assertEqual(it.step().runs, ())

    def test_force_and_scrub(self) -> None:
        with device() as it:
            host = it.hosts[0]
            it.manager.initiate_dynamic_capacity_add(0, 0, policy=Policy.PRESCRIPTIVE, extents=[Extent(MIB, MIB)])
            host.accept()
            host.store(MIB, 1)
            it.manager.initiate_dynamic_capacity_release(0, 0, [Extent(MIB, MIB)], forced=True)
            self.assertEqual([(r.change, r.host, r.dpa) for r in it.step().runs], [(Change.LOST, 0, MIB)])
            with self.assertRaises(AccessRefused) as told:
                host.load(MIB)
            self.assertEqual(told.exception.name, "DCD_NOT_GRANTED")
            self.assertEqual(it.scrub(), 1)
            run, = it.step().runs
            self.assertEqual((run.change, run.host, run.media, run.first_granule, run.granules), (Change.ZEROED, None, MIB, 1, 1))

    def test_more_is_no_grant(self) -> None:
        with device() as it:
            it.manager.initiate_dynamic_capacity_add(0, 0, MIB)
            it.hosts[0].accept()
            it.hosts[1].add_dynamic_capacity_response([Extent(1 << 30, MIB)], more=True)
            self.assertEqual(it.step().runs, ())
            with self.assertRaises(Refused) as told:
                it.hosts[1].add_dynamic_capacity_response([Extent((1 << 30) + MIB, MIB)])
            self.assertEqual((told.exception.code, told.exception.rule), (0x0F, "NotOffered"))

    def test_a_refusal_has_its_values(self) -> None:
        with device() as it:
            with self.assertRaises(Refused) as told:
                it.manager.initiate_dynamic_capacity_add(7, 0, MIB)
            self.assertEqual((told.exception.rule, told.exception.values, told.exception.code_name), ("NoSuchHost", (7,), "Invalid Input"))
            self.assertEqual(str(told.exception), "no host 7; there are 0 and 1")

    def test_sharing_by_a_tag(self) -> None:
        with device() as it:
            it.manager.initiate_dynamic_capacity_add(0, 1, MIB, tag=TAG)
            mine = it.hosts[0].accept()[0]
            it.manager.initiate_dynamic_capacity_add(1, 1, policy=Policy.ENABLE_SHARED_ACCESS, tag=TAG)
            theirs = it.hosts[1].accept()[0]
            it.hosts[0].store(mine.dpa, 7)
            self.assertEqual(it.hosts[1].load(theirs.dpa), 7)
            self.assertEqual(it.tags(), [LiveTag(TAG, (0, 1), (), False)])
            self.assertEqual(it.manager.dynamic_capacity_list_tags(), it.tags())

    def test_a_tag_ends(self) -> None:
        with device() as it:
            self.assertEqual(it.tags(), [])
            it.manager.initiate_dynamic_capacity_add(1, 1, MIB, tag=TAG)
            it.manager.dynamic_capacity_add_reference(TAG)
            self.assertEqual(it.tags(), [LiveTag(TAG, (), (1,), True)])
            it.hosts[1].add_dynamic_capacity_response()
            self.assertEqual(it.tags(), [LiveTag(TAG, (), (), True)])
            it.manager.dynamic_capacity_remove_reference(TAG)
            self.assertEqual(it.tags(), [])

    def test_maps_are_holdings(self) -> None:
        """Who applies the runs from the start has what each host holds."""
        with device() as it:
            held: "set[tuple[int, int]]" = set()
            acts = [lambda: it.manager.initiate_dynamic_capacity_add(0, 0, 4 * MIB), lambda: it.hosts[0].accept(),
                    lambda: it.hosts[0].release_dynamic_capacity([Extent(MIB, 2 * MIB)]), lambda: it.scrub(),
                    lambda: it.manager.initiate_dynamic_capacity_add(1, 0, 3 * MIB), lambda: it.hosts[1].accept(),
                    lambda: it.manager.initiate_dynamic_capacity_release(1, 0, it.hosts[1].extents(), forced=True)]
            for act in acts:
                act()
                for run in it.step().runs:
                    granules = {(run.host, g) for g in range(run.first_granule, run.first_granule + run.granules)}
                    held = held | granules if run.change == Change.GAINED else held - granules
                for number, host in enumerate(it.hosts):
                    base = it.bases()[number][0]
                    wanted = {(number, (e.dpa - base) // MIB + n) for e in host.extents() for n in range(e.length // MIB)}
                    self.assertEqual({it for it in held if it[0] == number}, wanted)


if __name__ == "__main__":
    unittest.main()
