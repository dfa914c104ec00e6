"""Origins that are held on lease, over the engines that tell of no lost connection."""

import time
from unittest.mock import patch

from chrrep import Id
from chrrep.link import OriginShared
from links import Links
from programs import PLAIN


class Leases(Links):
    """Engines that hold an origin for a time, and not by a connection."""

    def test_a_lease_that_ran_out(self) -> None:
        """Whoever was stopped for so long that another has its origin tells nothing more."""
        link = type(self.link())
        with patch.object(link, "_beat"):
            with patch.object(link, "lease_seconds", 0.5):
                one = self.member(PLAIN, 4)
                one.tell(("a", 1))
            time.sleep(0.7)
            # its lease is a long one, so it is not out when the machine goes on late
            other = self.member(PLAIN, 4)
            with self.assertRaises(OriginShared):
                one.tell(("a", 2))
            self.assertEqual(other.tell(("a", 3)), Id(4, 2))
            self.assertEqual(other.show(), (("a", 1), ("a", 3)))

    def test_a_live_node_keeps_its_origin(self) -> None:
        """Each try of another one lasts as long as a lease, of which the machine may go on late by fourteen beats."""
        with patch("chrrep.link.log._HEARTBEAT", 0.1), patch("chrrep.link.log.Link.lease_seconds", 1.5):
            one = self.member(PLAIN, 4)
            for _ in range(2):
                with self.assertRaises(OriginShared):
                    self.link(4)
            self.assertEqual(one.tell(("a", 1)), Id(4, 1))
