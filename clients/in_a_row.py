"""Sign-ins in a row, of which only `softkey` does any work: ./in_a_row.py PROGRAM [COUNT]

Each is a request of one packet, a decision, and a signature that nobody verifies, written ahead. Prints the processor time of
one, and the memory of the process before them and after them.
"""
import os
import sys
import threading

from softkey_host import Softkey

# an authenticator with one credential, resident at the relying party `abc`, with its counter at 0
SAVED = ("a501010250676172766f656e6720736f66746b657903f504f40581a701582001010101010101010101010101010101010101010101010101010101010101"
         "0102636162630341010458200202020202020202020202020202020202020202020202020202020202020202052606f50700")
CHANNEL = "00000001"
OPENS = "ffffffff86000800010203040506070"
ASKS = CHANNEL + "90002a02a20163616263025820" + 32 * "22"
TICK = os.sysconf("SC_CLK_TCK")


def packet(words):
    """The line of a packet that begins with these digits."""
    return f"packet {words.ljust(128, '0')}\n"


def number(value):
    """The digits of a number in canonical CBOR."""
    for head, size in ((0x18, 1), (0x19, 2), (0x1A, 4)):
        if value < 24:
            return f"{value:02x}"
        if value < 1 << 8 * size:
            return f"{head:02x}" + value.to_bytes(size, "big").hex()
    raise ValueError(value)


def processor_seconds(process):
    """The time that the system accounts to the process."""
    with open(f"/proc/{process.pid}/stat") as stat:
        user, system = stat.read().rpartition(")")[2].split()[11:13]
    return (int(user) + int(system)) / TICK


def main():
    count = int(sys.argv[2]) if len(sys.argv) > 2 else 100000
    key = Softkey(sys.argv[1])
    assert key.line("load " + SAVED) == [] and key.line(packet(OPENS).strip())[0][0] == "out"
    lines = (packet(ASKS) + "decide 1 0" + 5 * (" " + 64 * "0") + "\nsignature " + 64 * "5e" + "\n").encode()

    def feed():
        for _ in range(count):
            key.process.stdin.write(lines)
        key.process.stdin.flush()

    before, _ = key.memory()
    writer = threading.Thread(target=feed)
    writer.start()
    answers = replies = 0
    while answers < 3 * count:
        line = key.process.stdout.readline()
        assert line and not line.startswith(b"error"), line
        answers += line == b".\n"
        replies += line.startswith(f"out {CHANNEL}90".encode())
    writer.join()
    # the credential's counter stands at the end of what is saved, in CBOR
    assert replies == count and key.line("save")[0][1].endswith("06f507" + number(count))
    after, most = key.memory()
    print(f"{count} sign-ins | {processor_seconds(key.process) / count * 1e6:.1f} µs each | {before} kB before, {after} kB after, {most} kB at most")
    assert key.close() == 0


main()
