"""All tests that hold over each engine."""

from commands import Commands
from logs import Logs
from members import Members
from naming import Naming
from origins import Origins
from programs_of_logs import Programs
from snapshots import Snapshots
from upgrades import Upgrades


class Everything(Logs, Origins, Members, Naming, Programs, Upgrades, Snapshots, Commands):
    """All that holds over any engine."""
