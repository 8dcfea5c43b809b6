"""`softkey` as a HID device that a browser finds, by Linux's /dev/uhid: ./uhid.py PROGRAM FILE [WORDS of the program ..]

FILE keeps the authenticator over a restart, with its secrets in clear. The user decides on the terminal. The script wants
leave to open /dev/uhid; where the machine has none it says so and ends with status 1.
"""
import os
import select
import struct
import sys

from softkey_host import Softkey

DEVICE = "/dev/uhid"
# of linux/uhid.h: the kinds of events
DESTROY, OUTPUT, GET_REPORT, GET_REPORT_REPLY, CREATE2, INPUT2, SET_REPORT, SET_REPORT_REPLY = 1, 6, 9, 10, 11, 12, 13, 14
EVENT_SIZE = 4380
USB, VENDOR, PRODUCT, IO_ERROR = 3, 0x1209, 0x0001, 5
# CTAP 2.1, section 11.2.8.1: usage page F1D0, reports of 64 bytes in and out
REPORTS = bytes.fromhex("06d0f10901a1010920150026ff007508954081020921150026ff00750895409102c0")


class HidDevice:
    """A HID device of the kernel's, made by writing its events."""

    def __init__(self, handle):
        self.handle = handle
        names = b"softkey".ljust(128, b"\0") + b"".ljust(64, b"\0") + b"".ljust(64, b"\0")
        numbers = struct.pack("<HHIIII", len(REPORTS), USB, VENDOR, PRODUCT, 1, 0)
        self.write(CREATE2, names + numbers + REPORTS.ljust(4096, b"\0"))

    def write(self, kind, data=b""):
        os.write(self.handle, struct.pack("<I", kind) + data)

    def send(self, packet):
        self.write(INPUT2, struct.pack("<H", len(packet)) + packet)

    def read(self):
        """The packet that the next event brings, or nothing."""
        event = os.read(self.handle, EVENT_SIZE)
        kind = struct.unpack_from("<I", event)[0]
        if kind == OUTPUT:
            size = struct.unpack_from("<H", event, 4 + 4096)[0]
            # a report's number, which is 0, stands before the packet
            return event[4:4 + size][-64:].ljust(64, b"\0")
        if kind in (GET_REPORT, SET_REPORT):
            number = struct.unpack_from("<I", event, 4)[0]
            if kind == GET_REPORT:
                self.write(GET_REPORT_REPLY, struct.pack("<IHH", number, IO_ERROR, 0))
            else:
                self.write(SET_REPORT_REPLY, struct.pack("<IH", number, IO_ERROR))
        return None

    def close(self):
        self.write(DESTROY)


class Host:
    """The cable between a HID device and `softkey`, and the user at a terminal."""

    def __init__(self, device, key, file):
        self.device = device
        self.key = key
        self.file = file
        self.waiting = False
        self.quiet = 0
        self.saved = None
        key.consent = None
        if os.path.exists(file):
            with open(file) as kept:
                self.saved = kept.read()
            if key.line("load " + self.saved):
                sys.exit(f"{file} is no saved authenticator")

    def take(self, packet):
        """A packet comes; what it tells is shown."""
        for words in self.key.packet(packet):
            if words[0] == "waits":
                self.waiting = True
                print("a request waits: y you are here, v you are here and verified, n no: ", end="", flush=True)
            elif words[0] in ("cancelled", "aborted"):
                self.waiting = False
                print(words[0], flush=True)

    def decide(self, answer):
        """The user decides on the request that waits."""
        if self.waiting:
            self.waiting = False
            self.key.consent = (answer in ("y", "v"), answer == "v")
            self.key.decide()
            self.key.consent = None

    def keep(self):
        """Keeps the authenticator where it has changed."""
        saved = self.key.line("save")[0][1]
        if saved != self.saved:
            with open(os.open(self.file + ".new", os.O_WRONLY | os.O_CREAT | os.O_TRUNC, 0o600), "w") as kept:
                kept.write(saved)
                kept.flush()
                os.fsync(kept.fileno())
            os.replace(self.file + ".new", self.file)
            self.saved = saved

    def send(self):
        """Sends the packets that are due: what has changed is kept before."""
        if self.key.packets:
            self.keep()
        while self.key.packets:
            self.device.send(self.key.packets.popleft())

    def step(self, answers):
        """Serves what comes within a tenth of a second; says whether the terminal goes on."""
        ready, _, _ = select.select([self.device.handle, answers], [], [], 0.1)
        if self.device.handle in ready:
            packet = self.device.read()
            if packet is not None:
                self.take(packet)
        if answers in ready:
            line = answers.readline()
            if line == "":
                return False
            self.decide(line.strip())
        self.quiet = 0 if ready else self.quiet + 1
        if self.quiet and self.waiting:
            self.key.line("wait")
        elif self.quiet == 5:
            # of a message that is coming in, no packet for half a second
            self.key.line("expire")
        self.send()
        return True


def main():
    if not os.path.exists(DEVICE):
        sys.exit(f"{DEVICE} is not there: this machine makes no HID devices (Linux: modprobe uhid)")
    device = HidDevice(os.open(DEVICE, os.O_RDWR))
    key = Softkey(sys.argv[1], *sys.argv[3:])
    host = Host(device, key, sys.argv[2])
    print("softkey is there; the end of input ends it", flush=True)
    try:
        while host.step(sys.stdin):
            pass
    finally:
        device.close()
        key.close()


if __name__ == "__main__":
    main()
