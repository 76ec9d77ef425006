"""One printed symbol, one damaged symbol, one refusal, one text with its charset.

    PYTHONPATH=library/python ECC200_LIBRARY=library/out/libecc200.so python3 library/examples/example.py
"""
import ecc200


def show(rows):
    """A symbol with a quiet zone of one module on all sides."""
    blank = bytes(len(rows))
    for row in [blank, *rows, blank]:
        print("".join("##" if module else "  " for module in b"\0" + row + b"\0"))


# a printed symbol
rows = ecc200.write(b"Mitsubadoor")
show(rows)

# a damaged symbol: four modules in one corner
grid = [bytearray(row) for row in rows]
for at in range(1, 5):
    grid[at][at] ^= 1
reading = ecc200.read(grid)
print(f"{reading.data.decode()}: {reading.corrected[0]} codewords corrected, "
      f"{reading.border_faults} border modules wrong")

# a refusal: a symbol that is cut off below
grid[-1] = bytearray(len(grid))
try:
    ecc200.read(grid)
except ecc200.Refused as why:
    print(f"refused with {why.code.value}: {str(why).split(' (')[0]} ({why.value})")

# a text with its charset: ECI 26 is UTF-8
rows = ecc200.write("caf\xe9".encode("utf-8"), marks=[(0, 26)], form=ecc200.Form.SMALLEST, shape=ecc200.Shape.ANY)
reading = ecc200.read(rows)
(place, number), = reading.marks
print(f"{reading.rows} x {reading.columns}: {reading.symbology}, {len(reading.items)} bytes, ECI {number} at {place}")
