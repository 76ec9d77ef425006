"""What the tests of the program share: a run, its lines on standard error, and grids with what they say."""
from tests.library.model import SIZES
from tests.support import commands
from tests.support.places import PROGRAM

USAGE = (b"dm_tool: usage: dm_tool read|check [--border N] | normal [--border N] [--shorter] | write [--shorter]"
         b" | table\n")
READ_FAILED = b"dm_tool: read failed\n"
WRITE_FAILED = b"dm_tool: write failed\n"
TOO_MUCH = b"dm_tool: too much input\n"
NO_MEMORY = b"dm_tool: no memory\n"

GRID_123456 = (b"1010101010 1100101101 1100000100 1100011101 1100001000 "
               b"1000001111 1110110000 1111011001 1001110100 1111111111 ").replace(b" ", b"\n")
GRID_A = (b"1010101010 1101100011 1000110100 1001101011 1001010000 "
          b"1001001011 1101001100 1100111101 1100001000 1111111111 ").replace(b" ", b"\n")
ONE_WRONG = b"0" + GRID_123456[1:]
NO_BOTTOM_ROW = GRID_123456.replace(b"1" * 10, b"0" * 10)
TWO = GRID_123456 + b"\n\n" + GRID_A
# Of each square to side 104: its side, its regions, the sides of one and of all of them, and its codewords.
TABLE = b"".join(b"%d %d %d %d %d %d %d %d\n" % (it.rows, it.down * it.across, it.region_rows,
                                                 it.mapping_rows, it.data, it.check, it.blocks, it.limit)
                 for it in SIZES if it.rows == it.columns <= 104)


def ran(words, given=b"", *, env=None, **streams):
    """Gives status, output and line of a run of the program; output None where it went elsewhere."""
    return commands.run([PROGRAM, *words], given, env=env, **streams)
