"""Makes of a module of LLVM for Linux on ARM64 the same for WebAssembly with 64-bit memory: retarget.py MODULE.ll > WASM.ll.
It changes two target lines, drops attributes that name a processor's ways, and says one vector instruction, addp, in plain
LLVM. It lists what it changed on standard error, and fails where the text has more that is of ARM64 alone."""
import re
import sys

LAYOUT = "e-m:e-p:64:64-p10:8:8-p20:8:8-i64:64-i128:128-n32:64-S128-ni:1:10:20"
ADDP = r"@llvm\.aarch64\.neon\.addp\.v16i8\b"
# Each byte is the sum of two neighbours: of the first operand's eight pairs, then of the second's.
EVEN, ODD = ("<16 x i32> <" + ", ".join(f"i32 {i}" for i in range(first, 32, 2)) + ">" for first in (0, 1))
SUMS = (rf'  %"\1.even" = shufflevector \2, \3, {EVEN}' + "\n" + rf'  %"\1.odd" = shufflevector \2, \3, {ODD}' + "\n" +
        r'  %\1 = add <16 x i8> %"\1.even", %"\1.odd"')
CHANGES = (
    ("target layout", r'^target datalayout = ".*"$', f'target datalayout = "{LAYOUT}"'),
    ("target triple", r'^target triple = "aarch64-unknown-linux-gnu"$', 'target triple = "wasm64-unknown-unknown"'),
    ("attributes", r' "(?:frame-pointer|probe-stack|stack-probe-size|target-cpu|target-features)"="[^"]*"', ""),
    ("calls of addp", rf"^  %([\w.]+) = (?:tail )?call <16 x i8> {ADDP}\((<16 x i8> [^,]+), (<16 x i8> [^,]+)\)(?: #\d+)?$", SUMS),
    ("declaration of addp", rf"^declare <16 x i8> {ADDP}\(.*\n", ""),
    ("order of its uses", rf"^uselistorder ptr {ADDP}, .*\n", ""),
)
# What LLVM means on every machine.
PLAIN = re.compile(r"@llvm\.(abs|arithmetic\.fence|assume|bswap|ctlz|ctpop|cttz|fsh[lr]|lifetime\.(end|start)|memcpy|memmove|memset|"
                   r"[su](add|mul|sub)\.with\.overflow|[su](add|sub)\.sat|[su](max|min)|trap|vector\.reduce\.\w+)\.?")

with open(sys.argv[1], encoding="utf-8") as file:
    text = file.read()
said = []
for what, old, new in CHANGES:
    text, count = re.subn(old, new, text, flags=re.M)
    said.append(f"{what} {count}")
beyond = [line for line in text.split("\n") if re.search(r"aarch64|arm64|\basm\b|\bneon\b|\bsve\b|vscale|x86", line)
          or any(not PLAIN.match(line, at.start()) for at in re.finditer(r"@llvm\.", line))]
if beyond:
    print("retarget.py: of ARM64 alone:", *beyond[:10], sep="\n", file=sys.stderr)
    sys.exit(1)
print(text, end="")
print("changed: " + ", ".join(said), file=sys.stderr)
