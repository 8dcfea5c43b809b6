"""What a crash may leave of two files, a database and its log, from a record of the calls that a program made: read from
strace's text, replayed, and cut off between two calls. What was flushed is there. Of what was not, each call, each sector of 512
bytes and each byte is there or not, in any order; past the flushed end of a file any bytes may stand, and, where that is asked
for, in any sector that was being written. A name that a folder's flush has not kept may be missing."""
import re

SECTOR = 512
# The calls that are recorded.
CALLS = "openat,close,pwrite64,write,ftruncate,fsync,fdatasync,rename,renameat,renameat2,copy_file_range,sendfile,unlink,unlinkat"


def traced(trace):
    """The words before a program that record its calls in a file."""
    return ["strace", "-qq", "-xx", "-s", "4000000", "-o", str(trace), "-e", f"trace={CALLS}", "-e", "signal=none"]


def text_of(word):
    """The bytes of a string as strace writes it."""
    return bytes.fromhex(re.fullmatch(r'"(.*)"', word).group(1).replace("\\x", ""))


class Call:
    """A call that was made: what it is, of which path, and where with what."""

    def __init__(self, kind, path, at=0, data=b""):
        self.kind, self.path, self.at, self.data = kind, path, at, data


def calls_of(trace):
    """The calls of a record that changed or flushed a file, or told something on standard output."""
    names, found = {1: "answers"}, []
    for line in open(trace, encoding="ascii"):
        made = re.fullmatch(r"(\w+)\((.*)\)\s+= (-?\d+)(?: .*)?\n", line)
        if made is None or int(made.group(3)) < 0:
            continue
        name, words, result = made.group(1), made.group(2).split(", "), int(made.group(3))
        if name == "openat":
            path = text_of(words[1]).decode()
            names[result] = path
            if "O_EXCL" in words[2]:
                found.append(Call("make", path))
        elif name == "close":
            names.pop(int(words[0]), None)
        elif name in ("rename", "renameat", "renameat2"):
            paths = [text_of(word).decode() for word in words if word.startswith('"')]
            found.append(Call("rename", paths[1], data=paths[0]))
        elif name in ("copy_file_range", "sendfile"):
            found.append(Call("copy", names.get(int(words[2 if name == "copy_file_range" else 0]), "")))
        elif name not in ("unlink", "unlinkat"):
            path = names.get(int(words[0]), "")
            if name == "write":
                found.append(Call("tell" if path == "answers" else "copy", path, data=text_of(words[1])[:result]))
            elif name == "pwrite64":
                found.append(Call("write", path, int(words[3]), text_of(words[1])[:result]))
            elif name == "ftruncate":
                found.append(Call("cut", path, int(words[1])))
            else:
                found.append(Call("flush", path))
    return found


def write(content, at, data):
    """Writes into the bytes of a file, which grows by zeros."""
    if len(content) < at + len(data):
        content.extend(bytes(at + len(data) - len(content)))
    content[at:at + len(data)] = data


def cut(content, length):
    del content[length:]
    content.extend(bytes(length - len(content)))


def do(content, call):
    if call.kind == "write":
        write(content, call.at, call.data)
    else:
        cut(content, call.at)


class Kept:
    """A file at a moment: what was flushed of it, the calls since, and whether its name was."""

    def __init__(self, content):
        self.content, self.calls = None if content is None else bytearray(content), []
        self.is_named = content is not None

    def take(self, call):
        """A further call."""
        if call.kind == "make":
            self.content = bytearray()
        elif call.kind in ("write", "cut"):
            self.calls.append(call)
        elif call.kind == "flush":
            for one in self.calls:
                do(self.content, one)
            self.calls = []

    def now(self):
        """What the process reads."""
        content = bytearray(self.content)
        for call in self.calls:
            do(content, call)
        return content

    def left(self, rng, how):
        """What a crash may leave: bytes, or None where there is no file."""
        if self.content is None or (not self.is_named and rng.random() < 0.3):
            return None
        if how == "all":
            return bytes(self.now())
        content, flushed = bytearray(self.content), len(self.content)
        calls = [call for call in self.calls if rng.random() < 0.7] if how != "none" else []
        if how in ("sectors", "bytes", "garbage"):
            calls = [piece for call in calls for piece in pieces(call) if rng.random() < 0.6]
            rng.shuffle(calls)
        for call in calls:
            if how == "bytes" and call.kind == "write":
                call = mixed(rng, content, call)
            if how == "garbage" and call.kind == "write" and rng.random() < 0.5:
                call = Call("write", call.path, call.at, rng.randbytes(len(call.data)))
            do(content, call)
        if how == "bytes" and flushed < len(content) and rng.random() < 0.5:
            self.spoil(rng, content, flushed)
        return bytes(content)

    def spoil(self, rng, content, flushed):
        """Puts any bytes past the flushed end, in sectors that were being written."""
        for call in self.calls:
            if call.kind == "write":
                for piece in pieces(call):
                    start, end = max(flushed, piece.at), min(len(content), piece.at + len(piece.data))
                    if start < end and rng.random() < 0.3:
                        content[start:end] = rng.randbytes(end - start)


def pieces(call):
    """The parts of a call by sectors."""
    if call.kind != "write":
        return [call]
    ends = [*range((call.at // SECTOR + 1) * SECTOR, call.at + len(call.data), SECTOR), call.at + len(call.data)]
    found, at = [], call.at
    for end in ends:
        found.append(Call("write", call.path, at, call.data[at - call.at:end - call.at]))
        at = end
    return found


def mixed(rng, content, call):
    """A write of which each byte below the end of the file is made or not."""
    old = bytes(content[call.at:call.at + len(call.data)])
    data = bytes(new if rng.random() < 0.5 else was for was, new in zip(old, call.data)) + call.data[len(old):]
    return Call("write", call.path, call.at, data)


class Record:
    """The calls of a run over a database file and its log, which held these bytes before it."""

    def __init__(self, calls, path, database, log):
        self.calls, self.names, self.before = calls, [str(path), f"{path}-wal"], [database, log]
        self.folder = str(path.parent)

    def moments(self, wanted):
        """The files after each wanted number of calls, with the bytes that were told up to there."""
        files, told = [Kept(content) for content in self.before], bytearray()
        wanted = set(wanted)
        for number in range(len(self.calls) + 1):
            if number in wanted:
                yield number, files, bytes(told)
            if number < len(self.calls):
                self.take(files, told, self.calls[number])

    def take(self, files, told, call):
        if call.kind == "tell":
            told.extend(call.data)
        elif call.kind == "flush" and call.path.rstrip("/") == self.folder:
            for file in files:
                file.is_named = file.content is not None
        elif call.path in self.names:
            files[self.names.index(call.path)].take(call)

    def unsettled(self):
        """The moments at which a call waits to be flushed, or a name."""
        return [number for number, files, _ in self.moments(range(len(self.calls) + 1))
                if any(file.calls or not file.is_named for file in files)]


def flushes_of(calls, path):
    """How often a file was flushed for each answer that something was accepted, since the answer before it."""
    found, count = [], 0
    for call in calls:
        if call.kind == "flush" and call.path == path:
            count += 1
        elif call.kind == "tell":
            found += [count] if b'"accepted"' in call.data else []
            count = 0
    return found


def is_named_when_whole(calls, part, name):
    """Whether a file that is made under one name and renamed was flushed before that, and its folder after it, before the next
    answer."""
    is_flushed = is_renamed = is_kept = False
    for call in calls:
        if call.path == part and call.kind in ("write", "cut", "copy", "make"):
            is_flushed = False
        elif call.path == part and call.kind == "flush":
            is_flushed = True
        elif call.kind == "rename" and call.path == name:
            if not is_flushed:
                return False
            is_renamed = True
        elif call.kind == "flush" and is_renamed:
            is_kept = True
        elif call.kind == "tell" and is_renamed:
            return is_kept
    return False
