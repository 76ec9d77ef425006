"""A function in LLVM IR for x86-64 that shuffles, as library/retarget.py makes it one of another target: it has to give
what the intrinsic is said to give, for each number in each lane."""
import os
import subprocess
import sys

from tests.support import places
from tools import crates

sys.path.insert(0, places.path("library"))
import texts
sys.path.remove(places.path("library"))

LAYOUT = "e-m:e-p270:32:32-p271:32:32-p272:64:64-i64:64-i128:128-f80:128-n8:16:32:64-S128"
ARM = "e-m:e-p270:32:32-p271:32:32-p272:64:64-i8:8:32-i16:16:32-i64:64-i128:128-n32:64-S128-Fn32"
# A function that shuffles; the word asm, in a text that the code has, is no code of an assembler.
CODE = f"""target datalayout = "{LAYOUT}"
target triple = "x86_64-unknown-linux-gnu"

@words = private constant [16 x i8] c"asm \\22\\22, x86_fp80"

define void @look_up(ptr %table, ptr %places, ptr %out) #0 {{
  %bytes = load <16 x i8>, ptr %table, align 1
  %at = load <16 x i8>, ptr %places, align 1
  %found = call <16 x i8> @llvm.x86.ssse3.pshuf.b.128(<16 x i8> %bytes, <16 x i8> %at) #1
  store <16 x i8> %found, ptr %out, align 1
  ret void
}}

declare <16 x i8> @llvm.x86.ssse3.pshuf.b.128(<16 x i8>, <16 x i8>) #1
declare i64 @llvm.ctpop.i64(i64) #1

attributes #0 = {{ nounwind "probe-stack"="inline-asm" "stack-probe-size"="3072" "target-cpu"="x86-64-v2" }}
attributes #1 = {{ nounwind memory(none) }}

!llvm.module.flags = !{{!0}}
!0 = !{{i32 8, !"PIC Level", i32 2}}
"""
# Calls it with each number in each lane, and compares with what pshufb is said to give.
CALLER = """#include <stdint.h>
#include <stdio.h>
void look_up(const uint8_t *table, const uint8_t *places, uint8_t *out);
int main(void) {
    uint8_t table[16], places[16], out[16];
    int wrong = 0;
    for (int first = 0; first < 256; first++) {
        for (int i = 0; i < 16; i++)
            table[i] = (uint8_t)(37 * i + 11 + first), places[i] = (uint8_t)(first + 17 * i);
        look_up(table, places, out);
        for (int i = 0; i < 16; i++)
            wrong += out[i] != (places[i] < 128 ? table[places[i] % 16] : 0);
    }
    printf("%d wrong", wrong);
    return 0;
}
"""


def wrong(system, folder):
    """Compiles the function for a system, calls it, and says what is wrong, if anything is."""
    run = lambda words: subprocess.run(words, cwd=folder, check=True)
    texts.make(CODE, system.target.triple, [f"{crates.kit()}/toolchain/bin/clang", "-O3"], system.target.flags, "",
               os.path.join(folder, "look_up.s"), run)
    places.wrote(CALLER, folder, "caller.c")
    made = os.path.join(folder, f"caller{system.ending}")
    run([system.cc, *system.flags, "caller.c", "look_up.s", "-o", made])
    got = system.said([made])
    return None if got == (0, "0 wrong") else f"{got}"
