"""starting: what a site knows that was started beside others, without spread."""
from lib.cases import Case
from lib.facts import bundle, clients, dot, mark, records


class Starts(Case):
    def near(self, site):
        """The names of what is kept of the neighbours."""
        return sorted(it.name for it in (site.folder / "history").glob("near*"))

    def size(self, site, name):
        return (site.folder / name).stat().st_size

    def test_a_start_knows_what_neighbours_wrote(self):
        one = self.site(1)
        one.add(3)
        two = self.site(101, one)
        self.assertEqual(two.held_to(), {1: 3})
        self.assertEqual(self.near(two), ["near-00001-%d.otb" % self.size(one, "log/00001.otb")])
        two.stop()
        one.add(2)
        one.stop()
        self.again(two, one)
        self.assertEqual(two.held_to(), {1: 5})
        self.again(one, two)
        one.add()
        two.stop()
        self.again(two, one)
        self.assertEqual(two.held_to(), {1: 5, 2: 1})
        self.assertEqual(self.near(two), [
            "near-00001-%d.otb" % self.size(one, "old/00001.otb"),
            "near-00002-%d.otb" % self.size(one, "log/00002.otb")])

    def test_only_what_the_neighbour_made_is_kept(self):
        one = self.site(1)
        one.push(clients(500, 1, 2))
        one.push([mark(500, 3)], horizon=100)
        one.add()
        self.assertEqual(self.site(101, one).held_to(), {1: 1})

    def test_a_cut_record(self):
        one, whole = self.site(1), records(clients(50, 1, 2))
        one.write(50, whole[:-1])
        two = self.site(101, one)
        self.assertEqual((two.held_to(), "start:" in two.said()), ({50: 1}, False))
        two.stop()
        one.write(50, whole[-1:])
        self.again(two, one)
        self.assertEqual(two.held_to(), {50: 2})

    def test_a_malformed_piece_at_the_end_of_a_log(self):
        one, whole = self.site(1), records(clients(50, 1, 2))
        one.write(50, whole + bytes(16))
        two = self.site(101, one)
        self.assertEqual(two.held_to(), {50: 2})
        self.assertRegex(two.said(), "start: .*/old/00050.otb: no record at byte %d: .*: started "
                         "without the rest\n" % len(whole))

    def test_a_fact_that_the_program_does_not_load(self):
        one, whole = self.site(1), records(clients(50, 1))
        one.write(50, whole + bundle([dot((50, 2)) + b"\1\7"]))
        two = self.site(101, one)
        self.assertEqual((two.held_to(), self.near(two)), ({}, []))
        self.assertRegex(two.said(), "start: .*/old/00050.otb doesn't load: started without what "
                         "is new in it\n")

    def test_a_site_that_runs_is_left_alone(self):
        one = self.site(1)
        two = self.site(101, one)
        one.add()
        first, two.child = two.child, None
        two.begin([one])
        self.assertEqual(two.child.wait(30), 3)
        self.assertEqual(self.near(two), [])
        two.child = first

    def test_wrong_arguments_end_a_start_with_status_6(self):
        for words in (["site"], ["site", "0", "x-9"], ["site", "0", ""]):
            self.assertEqual(self.run_script("scale-out/start", *words)[0], 6, words)
