"""What subjects that talk to a whole keyring share: messages as a client marshals them, a client in C that sends each call
once the reply to the one before has come, keyringd, and gnome-keyring-daemon behind a dbus-daemon."""
import contextlib, ctypes, os, pathlib, shutil, socket, statistics, struct, subprocess, sys, time

from benchmarks.shared import keyring_file, run

SECRETS = "/org/freedesktop/secrets"
NAME = "org.freedesktop.secrets"
SECRET = "org.freedesktop.Secret."
PASSWORD = b"password"

# a call, and the time until its reply has come; messages of other kinds are skipped
TALK_C = r"""
#include <errno.h>
#include <string.h>
#include <time.h>
#include <unistd.h>
static unsigned number(const unsigned char *at) { unsigned it; memcpy(&it, at, 4); return it; }
static long length_of(const unsigned char *at) {
    long fields = number(at + 12);
    return 16 + (fields + 7) / 8 * 8 + number(at + 4);
}
static unsigned replied(const unsigned char *at) {
    long place = 16, end = 16 + number(at + 12);
    while (place < end) {
        place = (place + 7) / 8 * 8;
        unsigned char code = at[place], type = at[place + 2];
        place += 4;
        if (type == 'u') {
            if (code == 5) return number(at + place);
            place += 4;
        } else if (type == 'g') place += at[place] + 2;
        else place += 4 + number(at + place) + 1;
    }
    return 0;
}
static unsigned long long now(void) {
    struct timespec it;
    clock_gettime(CLOCK_MONOTONIC, &it);
    return it.tv_sec * 1000000000ull + it.tv_nsec;
}
/* sends the calls one after the other, and gives how many returns there were, or -1 if the other end failed; `room` begins with
   the `kept` bytes that have come already, and ends with those that came behind the last reply */
long talk(int from, int to, const unsigned char *calls, long count, unsigned long long *took, unsigned char *room, long size,
          long *kept) {
    long returns = 0, held = *kept;
    for (long i = 0; i < count; i++) {
        long left = length_of(calls);
        unsigned serial = number(calls + 8);
        unsigned long long begin = now();
        while (left > 0) {
            ssize_t sent = write(to, calls, left);
            if (sent < 0 && errno == EINTR) continue;
            if (sent <= 0) return -1;
            calls += sent;
            left -= sent;
        }
        for (int found = 0; !found;) {
            while (held < 16 || held < length_of(room)) {
                ssize_t got = held < size ? read(from, room + held, size - held) : 0;
                if (got < 0 && errno == EINTR) continue;
                if (got <= 0) return -1;
                held += got;
            }
            long length = length_of(room);
            if ((room[1] == 2 || room[1] == 3) && replied(room) == serial) {
                found = 1;
                returns += room[1] == 2;
            }
            held -= length;
            memmove(room, room + length, held);
        }
        took[i] = now() - begin;
    }
    *kept = held;
    return returns;
}
"""


def library(folder):
    """The client in C."""
    (folder / "talk.c").write_text(TALK_C)
    run(["gcc", "-O2", "-shared", "-fPIC", "-o", folder / "talk.so", folder / "talk.c"])
    talk = ctypes.CDLL(str(folder / "talk.so")).talk
    talk.restype = ctypes.c_long
    talk.argtypes = [ctypes.c_int, ctypes.c_int, ctypes.c_char_p, ctypes.c_long, ctypes.c_void_p, ctypes.c_void_p, ctypes.c_long,
                     ctypes.c_void_p]
    return talk


def first_type(types):
    """The first complete type of a signature, and the rest."""
    place = depth = 0
    while True:
        depth += (types[place] in "({") - (types[place] in ")}")
        place += 1
        if types[place - 1] != "a" and not depth:
            return types[:place], types[place:]


def alignment(kind):
    return {"y": 1, "g": 1, "v": 1, "t": 8, "(": 8, "{": 8}.get(kind, 4)


def spell(out, types, values):
    """Appends values of these types to the bytes of a little-endian body (D-Bus Specification, "Marshaling")."""
    for value in values:
        one, types = first_type(types)
        out += bytes(-len(out) % alignment(one[0]))
        if one in ("s", "o"):
            out += struct.pack("<I", len(value.encode())) + value.encode() + b"\0"
        elif one == "g":
            out += bytes([len(value)]) + value.encode() + b"\0"
        elif one == "y":
            out.append(value)
        elif one == "v":
            spell(out, "g", [value[0]])
            spell(out, value[0], [value[1]])
        elif one[0] in "({":
            spell(out, one[1:-1], value)
        elif one[0] == "a":
            place = len(out)
            out += bytes(4)
            out += bytes(-len(out) % alignment(one[1]))
            begin = len(out)
            if one == "ay":
                out += value
            else:
                for it in value.items() if isinstance(value, dict) else value:
                    spell(out, one[1:], [it])
            struct.pack_into("<I", out, place, len(out) - begin)
        else:
            out += struct.pack({"b": "<I", "u": "<I", "t": "<Q"}[one], value)
    return out


def read(data, types, place):
    """The values of these types from a place on, and the place after them."""
    values = []
    while types:
        one, types = first_type(types)
        place += -place % alignment(one[0])
        if one in ("s", "o"):
            size = struct.unpack_from("<I", data, place)[0]
            values.append(data[place + 4:place + 4 + size].decode())
            place += 5 + size
        elif one == "g":
            values.append(data[place + 1:place + 1 + data[place]].decode())
            place += 2 + data[place]
        elif one == "y":
            values.append(data[place])
            place += 1
        elif one == "v":
            kind, place = read(data, "g", place)
            inner, place = read(data, kind[0], place)
            values += inner
        elif one[0] in "({":
            inner, place = read(data, one[1:-1], place)
            values.append(inner)
        elif one[0] == "a":
            size, place = struct.unpack_from("<I", data, place)[0], place + 4
            place += -place % alignment(one[1])
            end, inner = place + size, []
            if one == "ay":
                inner, place = data[place:end], end
            while place < end:
                more, place = read(data, one[1:], place)
                inner += more
            values.append(inner)
        else:
            shape = {"b": "<I", "u": "<I", "t": "<Q"}[one]
            values.append(struct.unpack_from(shape, data, place)[0])
            place += struct.calcsize(shape)
    return values, place


def call(serial, path, interface, member, types="", values=(), to=None):
    """A method call, little-endian (D-Bus Specification, "Message Format")."""
    body = spell(bytearray(), types, values)
    fields = [(1, ("o", path)), (2, ("s", interface)), (3, ("s", member))]
    fields += [(6, ("s", to))] * bool(to) + [(8, ("g", types))] * bool(types)
    out = spell(bytearray(b"l\1\0\1"), "uua(yv)", [len(body), serial, fields])
    return bytes(out + bytes(-len(out) % 8) + body)


class Client:
    """A connection to a keyring, after the handshake. `to` is its name on the bus that the connection is to, if it's a bus."""

    def __init__(self, talk, source, target, to=None):
        self.talk, self.source, self.target, self.to, self.serial, self.held = talk, source, target, to, 0, b""
        self.size = 1 << 24
        self.room = ctypes.create_string_buffer(self.size)
        self.send(b"\0AUTH EXTERNAL " + str(os.getuid()).encode().hex().encode() + b"\r\n")
        while b"\r\n" not in self.held:
            self.more()
        if not self.held.startswith(b"OK "):
            sys.exit(f"scripts/bench: the handshake was answered {self.held!r}")
        self.held = self.held.partition(b"\r\n")[2]
        self.send(b"BEGIN\r\n")
        if to:
            name, self.to = self.to, "org.freedesktop.DBus"
            self.ask("/org/freedesktop/DBus", self.to, "Hello")
            self.to = name

    def send(self, data):
        while data:
            data = data[os.write(self.target, data):]

    def more(self):
        got = os.read(self.source, 1 << 16)
        if not got:
            sys.exit("scripts/bench: a keyring closed its connection")
        self.held += got

    def message(self):
        """The next message that comes: its kind, its fields, and its values."""
        while len(self.held) < 16 or len(self.held) < self.length():
            self.more()
        data, self.held = self.held[:self.length()], self.held[self.length():]
        fields, place = read(data, "a(yv)", 12)
        fields = dict(fields[0])
        return data[1], fields, read(data[place + -place % 8:], fields.get(8, ""), 0)[0]

    def length(self):
        body, _, fields = struct.unpack_from("<III", self.held, 4)
        return 16 + fields + -fields % 8 + body

    def next(self, path, interface, member, types="", values=()):
        """The next call of this client, in bytes."""
        self.serial += 1
        return call(self.serial, path, interface, member, types, values, self.to)

    def ask(self, *what):
        """Makes a call, and gives the values of its return."""
        self.send(self.next(*what))
        while True:
            kind, fields, values = self.message()
            if kind in (2, 3) and fields[5] == self.serial:
                if kind == 3:
                    sys.exit(f"scripts/bench: {what[2]} was answered {fields[4]}: {values}")
                return values

    def await_signal(self, member):
        while True:
            kind, fields, values = self.message()
            if kind == 4 and fields[3] == member:
                return values

    def talk_through(self, calls):
        """The nanoseconds from each call to its reply, which must be a return."""
        took, kept = (ctypes.c_ulonglong * len(calls))(), ctypes.c_long(len(self.held))
        ctypes.memmove(self.room, self.held, len(self.held))
        returns = self.talk(self.source, self.target, b"".join(calls), len(calls), took, self.room, self.size, ctypes.byref(kept))
        self.held = self.room.raw[:kept.value] if kept.value else b""
        if returns != len(calls):
            sys.exit(f"scripts/bench: {returns} of {len(calls)} calls had a return")
        return list(took)

    # ---- calls of the Secret Service

    def open_session(self):
        self.session = self.ask(SECRETS, SECRET + "Service", "OpenSession", "sv", ["plain", ("s", "")])[1]

    def ping(self):
        return self.next(SECRETS, "org.freedesktop.DBus.Peer", "Ping")

    def get_secret(self, item):
        return self.next(item, SECRET + "Item", "GetSecret", "o", [self.session])

    def search(self, attributes):
        return self.next(SECRETS, SECRET + "Service", "SearchItems", "a{ss}", [attributes])

    def create_item(self, collection, label, attributes, value):
        given = {SECRET + "Item.Label": ("s", label), SECRET + "Item.Attributes": ("a{ss}", attributes)}
        secret = (self.session, b"", value, "text/plain")
        return self.next(collection, SECRET + "Collection", "CreateItem", "a{sv}(oayays)b", [given, secret, False])

    def lock(self, collection):
        return self.next(SECRETS, SECRET + "Service", "Lock", "ao", [[collection]])


class Keyringd(Client):
    """A connection to keyringd."""

    def unlock(self, collection):
        """Unlocks a collection as its own agent, and gives the nanoseconds until the prompt has completed."""
        self.ask(SECRETS + "/agent", "org.keyringd.Agent1", "Register")
        begin = time.monotonic_ns()
        prompt = self.ask(SECRETS, SECRET + "Service", "Unlock", "ao", [[collection]])[1]
        self.send(self.next(prompt, SECRET + "Prompt", "Prompt", "s", [""]))
        turn = self.await_signal("Ask")[1]
        self.send(self.next(SECRETS + "/agent", "org.keyringd.Agent1", "Answer", "otay", [prompt, turn, PASSWORD]))
        if self.await_signal("Completed")[0]:
            sys.exit("scripts/bench: keyringd dismissed a prompt")
        return time.monotonic_ns() - begin


class Gnome(Client):
    """A connection to gnome-keyring-daemon, through its bus."""

    def unlock(self, collection):
        """Unlocks a collection by its own interface, without a prompt, and gives the nanoseconds until it has."""
        begin = time.monotonic_ns()
        self.ask(SECRETS, "org.gnome.keyring.InternalUnsupportedGuiltRiddenInterface", "UnlockWithMasterPassword", "o(oayays)",
                 [collection, (self.session, b"", PASSWORD, "text/plain")])
        return time.monotonic_ns() - begin


def connect(path):
    it = socket.socket(socket.AF_UNIX)
    it.connect(path)
    return it


def memory(process, row="VmRSS"):
    """The bytes that a process holds."""
    lines = pathlib.Path(f"/proc/{process.pid}/status").read_text().splitlines()
    return int(dict(line.split(":", 1) for line in lines)[row].split()[0]) * 1024


def seconds(process):
    """The seconds that the processors spent on a process."""
    fields = pathlib.Path(f"/proc/{process.pid}/stat").read_text().rpartition(")")[2].split()
    return (int(fields[11]) + int(fields[12])) / os.sysconf("SC_CLK_TCK")


@contextlib.contextmanager
def ended(process):
    try:
        yield process
    finally:
        process.kill()
        process.wait()


@contextlib.contextmanager
def gnome_keyring(folder):
    """gnome-keyring-daemon with a home in this folder, whose keyrings are those in `rings`, and the path of its bus. None if
    it isn't installed."""
    if not all(map(shutil.which, ("gnome-keyring-daemon", "dbus-daemon"))):
        yield None
        return
    home = folder / "home"
    (home / ".local/share").mkdir(parents=True)
    (folder / "rings").rename(home / ".local/share/keyrings")
    given = {key: it for key, it in os.environ.items() if not key.startswith(("XDG_", "DBUS_", "GNOME_"))}
    given.update(HOME=str(home), XDG_RUNTIME_DIR=str(folder), DBUS_SESSION_BUS_ADDRESS=f"unix:path={folder / 'bus'}")
    quiet = dict(env=given, stdin=subprocess.DEVNULL, stdout=subprocess.DEVNULL, stderr=subprocess.DEVNULL)
    words = ["dbus-daemon", "--session", "--nofork", f"--address=unix:path={folder / 'bus'}"]
    with ended(subprocess.Popen(words, **quiet)) as bus:
        until(lambda: (folder / "bus").exists(), "dbus-daemon has no socket")
        with ended(subprocess.Popen(["gnome-keyring-daemon", "--foreground", "--components=secrets"], **quiet)) as it:
            owned = ["dbus-send", "--print-reply", "--dest=org.freedesktop.DBus", "/", "org.freedesktop.DBus.NameHasOwner", f"string:{NAME}"]
            until(lambda: "true" in subprocess.run(owned, env=given, capture_output=True, text=True).stdout, "gnome-keyring-daemon has no name")
            yield it, bus, str(folder / "bus")


def until(holds, otherwise, limit=20):
    begin = time.monotonic()
    while not holds():
        if time.monotonic() - begin > limit:
            sys.exit(f"scripts/bench: {otherwise}")
        time.sleep(0.02)


def rings(folder, items):
    """A folder `rings` with a keyring `bench` of so many items, whose password is PASSWORD: the items' path and attributes."""
    (folder / "rings").mkdir(parents=True)
    keyring_file(folder / "rings/bench.keyring", items)
    collection = f"{SECRETS}/collection/bench"
    return collection, [(f"{collection}/{n}", {"user": f"user{n}@example.org"}) for n in range(items)]


def middle(took):
    return statistics.median(took)


def last(took):
    """What 99 of 100 calls don't take longer than."""
    return sorted(took)[len(took) * 99 // 100]
