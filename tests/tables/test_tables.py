"""Compares the long tables of the crates with what tools/tables makes."""
from tests.support import commands, places
from tests.support.case import Case


class Tables(Case):
    def test_they_are_what_tools_tables_makes(self):
        status, said = commands.said([places.path("tools", "tables"), "--check"])
        told = [line.split(": ", 1) for line in said.splitlines()]
        self.rows((name, verdict, "as tools/tables makes it") for name, verdict in told)
        self.assertEqual(status, 0, said)
