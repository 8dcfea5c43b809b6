"""A security key with a PIN, in Python, for tests: `pin_authenticator` behind CTAPHID (CTAP 2.1, section 11.2). It is driven in its own
process: `packet` takes a packet of 64 bytes and gives those that it sends, `touch` is the user's finger, `power_cycle` pulls it
out and plugs it in."""
import os
import queue
import struct

from pin_authenticator import KEEPALIVE_CANCEL, Authenticator, Kind, Status
from pin_key_parts import write

MAX_MESSAGE, BROADCAST = 7609, 0xFFFFFFFF
PING, MSG, INIT, CBOR, CANCEL, KEEPALIVE, ERROR = 0x01, 0x03, 0x06, 0x10, 0x11, 0x3B, 0x3F
UPNEEDED = 2
INVALID_COMMAND, INVALID_LENGTH, INVALID_SEQ, MSG_TIMEOUT, CHANNEL_BUSY, INVALID_CHANNEL = 1, 3, 4, 5, 6, 0x0B
__all__ = ["Cable", "Kind", "PinKey"]


class PinKey(Authenticator):
    """The authenticator behind CTAPHID. `presence` is what the user gives to a request that waits: true, false, or None where he
    does not touch it until `touch`."""

    def __init__(self, kind=None, pin=None, presence=True, **how):
        super().__init__(kind, pin, **how)
        self.presence, self.heard = presence, []
        self.connect()

    def connect(self):
        self.channels, self.coming, self.working, self.running = set(), None, None, None

    def power_cycle(self):
        """Pulled out and plugged in: channels, tokens and what was under way are gone."""
        self.power_up()
        self.connect()

    # ---- packets out

    @staticmethod
    def packets(channel, command, data):
        first = struct.pack(">IBH", channel, 0x80 | command, len(data)) + data[:57]
        rest = [struct.pack(">IB", channel, place) + data[57 + 59 * place:116 + 59 * place] for place in range((max(len(data) - 57, 0) + 58) // 59)]
        return [packet.ljust(64, b"\0") for packet in [first, *rest]]

    def error(self, channel, code):
        return self.packets(channel, ERROR, bytes([code]))

    def keepalive(self, status=UPNEEDED):
        """What a key sends every 100 ms while it works."""
        return self.packets(self.working, KEEPALIVE, bytes([status]))

    # ---- packets in (11.2.4)

    def packet(self, packet):
        assert len(packet) == 64
        channel, first = struct.unpack(">IB", packet[:5])
        if first < 0x80:
            return self.continued(channel, first, packet[5:])
        return self.begun(channel, first & 0x7F, struct.unpack(">H", packet[5:7])[0], packet[7:])

    def begun(self, channel, command, size, data):
        if command == INIT:
            return self.opened(channel, size, data)
        if channel not in self.channels:
            return self.error(channel, INVALID_CHANNEL)
        if command == CANCEL:
            return self.ended(KEEPALIVE_CANCEL) if channel == self.working else []
        if self.working is not None or (self.coming and self.coming[0] != channel):
            return self.error(channel, CHANNEL_BUSY)
        if self.coming:
            self.coming = None
            return self.error(channel, INVALID_SEQ)
        if size > MAX_MESSAGE:
            return self.error(channel, INVALID_LENGTH)
        self.coming = [channel, command, size, data, 0]
        return self.complete()

    def opened(self, channel, size, data):
        """INIT: a new channel by the broadcast channel, else the channel is made free."""
        if channel != BROADCAST and channel not in self.channels:
            return self.error(channel, INVALID_CHANNEL)
        if size != 8:
            return self.error(channel, INVALID_LENGTH)
        if channel == BROADCAST:
            made = self.free_channel()
            self.channels.add(made)
        else:
            made = channel
            self.coming = None if self.coming and self.coming[0] == channel else self.coming
            if self.working == channel:
                self.working = self.running = None
        return self.packets(channel, INIT, data[:8] + struct.pack(">IBBBBB", made, 2, 5, 4, 3, self.kind.capabilities))

    def free_channel(self):
        made = 0
        while made in (0, BROADCAST) or made in self.channels:
            made = int.from_bytes(os.urandom(4), "big")
        return made

    def continued(self, channel, place, data):
        if not self.coming or self.coming[0] != channel:
            return []
        if place != self.coming[4]:
            self.coming = None
            return self.error(channel, INVALID_SEQ)
        self.coming[3] += data
        self.coming[4] += 1
        return self.complete()

    def expire(self):
        """The rest of a message did not come in time."""
        channel, self.coming = self.coming[0], None
        return self.error(channel, MSG_TIMEOUT)

    def complete(self):
        channel, command, size, data, _ = self.coming
        if len(data) < size:
            return []
        self.coming, data = None, data[:size]
        if command == PING:
            return self.packets(channel, PING, data)
        if command == MSG and self.kind.u2f_only:
            return self.packets(channel, MSG, b"\x6d\x00")
        if command != CBOR or self.kind.u2f_only:
            return self.error(channel, INVALID_COMMAND)
        self.heard.append(data)
        self.working = channel
        before = [packet for status in self.kind.keepalives if data[:1] in (b"\x01", b"\x02") for packet in self.keepalive(status)]
        return before + self.asked(lambda: self.handled(data))

    # ---- requests

    def asked(self, call):
        """Makes the call, up to its end or the user's touch."""
        try:
            made = call()
            if not isinstance(made, dict):
                self.running = made
                next(made)
                return self.keepalive() + (self.touch(self.presence) if self.presence is not None else [])
        except Status as status:
            return self.ended(status.code)
        except StopIteration as done:
            made = done.value
        return self.ended(0, write(made) if made else b"")

    def touch(self, is_present=True):
        """The user touches the key, or declines."""
        running = self.running
        return self.asked(lambda: running.send(is_present)) if running else []

    def ended(self, status, content=b""):
        channel, self.working, self.running = self.working, None, None
        return self.packets(channel, CBOR, bytes([status]) + content)


class Cable:
    """A key for clients: `write` takes a packet, `read` waits for the next one. `change(number, packet)` may turn what the key sends;
    None loses it. After `unplug` both fail."""

    def __init__(self, key, change=None):
        self.key, self.change, self.number = key, change, 0
        self.coming, self.is_plugged = queue.SimpleQueue(), True

    def write(self, packet):
        self.plugged()
        self.send(self.key.packet(bytes(packet)))

    def send(self, packets):
        """Hands packets of the key on."""
        for packet in packets:
            if self.change is not None:
                packet = self.change(self.number, packet)
                self.number += 1
            if packet is not None:
                self.coming.put(packet)

    def read(self, timeout):
        self.plugged()
        try:
            packet = self.coming.get(timeout=timeout)
        except queue.Empty:
            raise TimeoutError from None
        if packet is None:
            raise OSError("the key is gone")
        return packet

    def plugged(self):
        if not self.is_plugged:
            raise OSError("the key is gone")

    def unplug(self):
        self.is_plugged = False
        self.coming.put(None)
