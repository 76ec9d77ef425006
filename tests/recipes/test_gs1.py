"""GS1 element strings by the recipe of docs/INTERCHANGE.md: each identifier before another; none; a needless FNC1."""
from tests.recipes.shell import Shell
from tests.support import needs

# Identifiers with as many digits or letters as they take, by GS1's General Specifications.
IDENTIFIERS = {"00": 18, "01": 14, "02": 14, "11": 6, "12": 6, "13": 6, "15": 6, "16": 6, "17": 6, "20": 2, "21": 8,
               "22": 8, "30": 4, "37": 3, "240": 9, "241": 9, "250": 9, "3100": 6, "3203": 6, "3302": 6, "3404": 6,
               "3501": 6, "3605": 6, "3922": 5, "400": 9, "401": 9, "403": 9, "410": 13, "411": 13, "412": 13,
               "413": 13, "414": 13, "415": 13, "416": 13, "417": 13, "420": 5, "421": 7, "422": 3, "7001": 13,
               "8005": 6, "8020": 9, "90": 4, "91": 4, "98": 4, "99": 4}
STRANGE = ["", "x", "(10)", "(1)AB", "(10)A(", "10)AB", "(01)123", "(17)2512311", "(10)A B", "(10)A\\F", "(12345)1",
           "x(10)A", "(10)A(17)2512"]
# Identifiers that begin with these have a fixed length, after which no FNC1 stands.
FIXED = "00 01 02 11 12 13 15 16 17 20 31 32 33 34 35 36 41".split()
# Messages that aren't the same, though GS1 has them mean the same.
OTHERS = [(r"\F01095011015300031725123110A", r"\F0109501101530003\F1725123110A"), (r"\F10A", r"\F10A\F"),
          (r"\F10A\F217", r"\F10A\x1D217")]


@needs.program
class ElementStrings(Shell):
    @staticmethod
    def data_of(identifier, count):
        return "2401010000000001234"[:count] if identifier != "20" else "01"

    def line_of(self, identifier, data):
        """Gives the line that the recipe makes of an identifier before a lot."""
        return self.run_here(f"echo '({identifier}){data}(10)X' | gs1")[1]

    def test_each_identifier(self):
        for identifier, count in IDENTIFIERS.items():
            data = self.data_of(identifier, count)
            separator = "" if identifier[:2] in FIXED else r"\F"
            self.row(identifier, self.line_of(identifier, data), rf"\F{identifier}{data}{separator}10X")

    def test_each_identifier_as_zint_writes_it(self):
        self.needs_of("zint_grid")
        for identifier, count in IDENTIFIERS.items():
            data = self.data_of(identifier, count)
            written = f"zint_grid --gs1 --gs1nocheck -d '[{identifier}]{data}[10]X' | dm_tool read"
            self.row(identifier, self.run_here(written)[1], self.line_of(identifier, data))

    def test_strings_that_are_none(self):
        for strange in STRANGE:
            self.row(strange, self.run_here(f"echo '{strange}' | gs1"), (1, "", True))

    def compared(self, lines):
        """Gives the status of dm_same for the symbols that a command writes from two lines."""
        return self.run_here(f"{lines} | dm_tool write | awk -v RS= '{{ print > (\"e\" NR) }}'; dm_same e1 e2")[0]

    def test_the_same_element_strings(self):
        self.assertEqual(self.compared("for one in '(10)AB(21)7' '(10)AB(21)7'; do echo \"$one\" | gs1; done"), 0)

    def test_a_needless_separator_makes_another_message(self):
        for one, other in OTHERS:
            self.row(f"{one} and {other}", self.compared(rf"printf '%s\n' '{one}' '{other}'"), 1)
