"""Makes the marks of a file anew: `python3 -m tests.corpus.make squares | cmp - tests/corpus/squares.txt`. Needs the
encoders that the file names, in the versions of Debian 12: zint 2.11.1, dmtx-utils 0.7.7 and iec16022 0.2.4, with
netpbm; for ZXing libzxing-java 3.4.1 and a JDK; for BWIPP libpostscriptbarcode of 2020-04-01 and ghostscript. Another
version may choose otherwise."""
import re
import subprocess
import sys
import tempfile

from tests import corpus
from tests.support import places

ZXING = ["java", "-XX:TieredStopAtLevel=1", "-XX:+UseSerialGC", "-cp", "/usr/share/java/core.jar",  # for a quick start
         places.path("tests", "corpus", "Zxing.java"), "write"]
BWIPP = "/usr/share/libpostscriptbarcode/barcode.ps"
# Prints the rows of the symbol that an encoder of BWIPP makes of a message.
TO_ROWS = """({source}) run <{message}> ({options} dontdraw) /{encoder} /uk.co.terryburton.bwipp findresource exec
dup /pixx get /width exch def /pixs get /modules exch def
0 1 modules length 1 sub {{
  dup modules exch get 48 add (x) dup 0 4 -1 roll put print
  1 add width mod 0 eq {{ (\\n) print }} if
}} for flush"""
TO_CELLS = "pngtopnm | ppmtopgm | pgmtopbm -threshold | pnmcrop -white -quiet | pnmtoplainpnm"


def output(words, given=None):
    return subprocess.run(words, input=given, check=True, stdout=subprocess.PIPE, stderr=subprocess.DEVNULL).stdout


def rows_of_picture(png):
    """The rows of a picture with one pixel a module."""
    plain = output(["sh", "-c", TO_CELLS], png).decode().split("\n")
    width = int(plain[1].split()[0])
    cells = "".join(plain[2:]).replace(" ", "")
    return [cells[at:at + width] for at in range(0, len(cells), width)]


def by_zint(message, *options):
    with tempfile.NamedTemporaryFile() as file:
        file.write(message)
        file.flush()
        how = ["--scale", "0.5", "--direct", "--filetype=png", "-i", file.name]
        return rows_of_picture(output(["zint", "-b", "71", *options, *how]))


def by_libdmtx(message, *options):
    return rows_of_picture(output(["dmtxwrite", "-d", "1", "-m", "1", *options], message))


def by_iec16022(message, *options):
    text = output(["iec16022", *options, "-f", "Text", "-c", message]).decode()
    return text.replace("*", "1").replace(" ", "0").split()


def by_bwipp(message, encoder, *options):
    words = TO_ROWS.format(source=BWIPP, message=message.hex(), options=" ".join(options), encoder=encoder)
    quietly = ["gs", "-q", "-dNODISPLAY", "-dNOPAUSE", "-dBATCH", f"--permit-file-read={BWIPP}", "-"]
    return output(quietly, words.encode()).decode().split()


def by_zxing(message, side):
    return output(ZXING, f"{side} {message.hex()}\n".encode()).decode().strip().split(",")


ENCODERS = {"zint": by_zint, "dmtxwrite": by_libdmtx, "iec16022": by_iec16022, "bwipp": by_bwipp, "zxing": by_zxing}


def given_to(mark):
    """The bytes that the encoder of a mark was given."""
    if "given" not in mark.more:
        return bytes(mark.content[0])
    return re.sub(rb"\\x([0-9A-F]{2})", lambda it: bytes.fromhex(it[1].decode()), mark.more["given"].encode())


def made(mark):
    """The line of a mark, with the modules that its encoder makes."""
    encoder, *options = mark.encoder.split()
    rows = ENCODERS[encoder](given_to(mark), *options)
    bits = "".join(rows)
    return "\t".join([mark.name, f"{len(rows)}x{len(rows[0])}", f"{int(bits, 2):0{len(bits) // 4}x}", "-", mark.said,
                      mark.encoder, *[f"{name}={value}" for name, value in mark.more.items()]])


if __name__ == "__main__":
    for each in corpus.marks(sys.argv[1]):
        print(made(each))
