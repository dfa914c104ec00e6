"""How links come by their origins, over whatever engine."""

import time
from unittest.mock import patch

from chrrep import Id
from chrrep.link import OriginShared
from links import Links
from programs import PLAIN


class Origins(Links):
    """Whose an origin is."""

    def test_origins_are_allotted(self) -> None:
        links = [self.link() for _ in range(3)]
        self.assertEqual([link.origin for link in links], [1, 2, 3])
        links[1].close()
        self.assertEqual(self.link(5).origin, 5)
        self.assertEqual([self.link().origin for _ in range(3)], [2, 4, 6])

    def test_a_chosen_origin_is_not_allotted(self) -> None:
        self.link(1).close()
        self.assertEqual(self.link().origin, 2)
        self.assertEqual(self.link(1).origin, 1)

    def test_an_origin_out_of_range(self) -> None:
        for origin in (-1, 2**32 - 1, 2**32):
            with self.assertRaises(ValueError):
                self.link(origin)
        self.assertEqual(self.link(2**32 - 2).origin, 2**32 - 2)
        self.assertEqual(self.link(0).origin, 0)

    def test_the_second_comer_is_refused(self) -> None:
        one = self.member(PLAIN, 4)
        with patch.object(type(one.link), "lease_seconds", 0.5), self.assertRaises(OriginShared) as raised:
            self.link(4)
        self.assertEqual(raised.exception.origin, 4)
        self.assertEqual(one.tell(("a", 1)), Id(4, 1))
        one.link.close()
        other = self.member(PLAIN, 4)
        self.assertEqual(other.tell(("a", 2)), Id(4, 2))
        self.assertEqual(other.show(), (("a", 1), ("a", 2)))

    def test_a_killed_nodes_origin_is_free_after_a_while(self) -> None:
        command = self.command("--origin", "7")
        self.assertEqual(command.ask("path(1,2,3)"), "told 7:1")
        command.kill()
        begin = time.monotonic()
        link = self.link(7)
        self.assertLess(time.monotonic() - begin, 11.0)
        self.put(link, [link.entry(2, [("path", 1, 2, 4)])])
