"""numbers_taken: runs of examples/carry/carry with servers that take no facts of some numbers."""
from lib.cases import Case
from lib.facts import client, clients, mark


class Numbers(Case):
    def test_a_number_that_is_not_taken_is_named_once_and_holds_no_other_back(self):
        one = self.tokend(1, *clients(3, *range(1, 101)), *clients(7, *range(1, 201)),
                          *clients(9, 1))
        self.assertEqual(one.push([mark(7, 300), mark(9, 2)], horizon=0), (200, b'{"took":2}'))
        two = self.tokend(2, options=("--accept", "1-6,8-10"))
        status, output, errors = self.carry(two.url, one.url)
        self.assertEqual(status, 1)
        self.assertEqual(errors, "carry: %s takes no facts of number 7: 409 out_of_range\n"
                         % two.url)
        self.assertIn("301 facts in 3 pages, 102 new, 201 out of range, 2 marks", output)
        self.assertEqual(two.held(), [*clients(3, *range(1, 101)), client(9, 1), mark(9, 2)])

    def test_an_item_of_a_number_that_is_not_taken_beside_one_that_is_refused(self):
        one = self.tokend(1, *clients(3, 1, 2), *clients(7, 1, 2), *clients(9, 1))
        two = self.tokend(2, client(3, 2, b"write"), options=("--accept", "1-6,8-10"))
        status, output, errors = self.carry(two.url, one.url)
        self.assertEqual((status, errors.count("\n")), (3, 2))
        self.assertIn("takes no facts of number 7: 409 out_of_range", errors)
        self.assertIn("refuses 3:2: 409 conflict", errors)
        self.assertIn("5 facts in 1 pages, 2 new, 1 refused, 2 out of range", output)
