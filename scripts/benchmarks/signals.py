"""Properties and signals of `keyringd serve`: Get of `Items` and GetAll of an item among 10,000 items, beside gnome-keyring-daemon
behind its dbus-daemon; CreateItem while 255 other connections take each signal, and while 255 never take one, beside nobody; and
the memory of a signal of 1,000,000 bytes that waits for 255 connections. Of CreateItem it is the least of five medians. Without GNOME keyring the figures are of keyringd alone."""
import contextlib, os, subprocess, sys, time

from benchmarks.clients import NAME, SECRET, Gnome, Keyringd, connect, ended, gnome_keyring, library, memory, middle, rings
from benchmarks.serve import opened, serving
from benchmarks.shared import keyringd

ITEMS = 10000
FEW = 200
CALLS = 1000
LISTS = 20
STORES = 40
ROUNDS = 5
OTHERS = 255
LABEL = 1000000
LABELS = 5
PROPERTIES = "org.freedesktop.DBus.Properties"

# takes whatever comes on the sockets that it is handed, until it is killed
TAKER = """
import os, select, sys
waits = select.epoll()
for it in sys.argv[1:]:
    waits.register(int(it), select.EPOLLIN)
while True:
    for it, _ in waits.poll():
        if not os.read(it, 1 << 16):
            waits.unregister(it)
"""


def measure(folder):
    talk, program = library(folder), keyringd(folder / "keyringd")
    here = folder / "ours"
    collection, items = rings(here, ITEMS)
    with serving(program, here) as (_, path), opened(talk, path, Keyringd) as client:
        ours = reads(client, collection, items)
    here = folder / "theirs"
    collection, items = rings(here, ITEMS)
    theirs = None
    with gnome_keyring(here) as peer:
        if peer:
            with opened(talk, peer[2], Gnome, NAME) as client:
                theirs = reads(client, collection, items)
    for at, title in enumerate(("GetAll of an item", "Get of Items")):
        peer = f", {theirs[at] / ours[at]:.1f} times as long with GNOME keyring" if theirs else ""
        print(f"keyringd serve, {title}, {ITEMS} items: {ours[at] / 1000:.0f} us{peer}")
    kinds = {None: "alone", True: "others that take each signal", False: "others that never take"}
    took = {it: [] for it in kinds}
    for number in range(ROUNDS):
        for takes in kinds:
            took[takes].append(stores(talk, program, folder / f"{number}{takes}", takes))
    for takes, title in kinds.items():
        least = min(took[takes])
        beside = "" if takes is None else f", {least / min(took[None]):.2f} times as long as alone"
        print(f"keyringd serve, CreateItem, {f'{OTHERS} ' * (takes is not None)}{title}: {least / 1000:.0f} us{beside}")
    grown = labels(talk, program, folder / "labels")
    print(f"keyringd serve, a signal of {LABEL} bytes that waits for {OTHERS} connections: {grown / LABEL:.2f} times its bytes")


def reads(client, collection, items):
    """The median nanoseconds of GetAll of an item and of Get of the collection's items."""
    client.open_session()
    client.unlock(collection)
    at = [items[n * 7919 % len(items)][0] for n in range(CALLS)]
    calls = [client.next(it, PROPERTIES, "GetAll", "s", [SECRET + "Item"]) for it in at]
    took = [middle(client.talk_through(calls))]
    calls = [client.next(collection, PROPERTIES, "Get", "ss", [SECRET + "Collection", "Items"]) for _ in range(LISTS)]
    return took + [middle(client.talk_through(calls))]


@contextlib.contextmanager
def others(path, takes):
    """Other connections, after their handshake, for which all is taken that comes, or nothing."""
    with contextlib.ExitStack() as stack:
        links = [stack.enter_context(connect(path)) for _ in range(OTHERS)]
        for it in links:
            it.sendall(b"\0AUTH EXTERNAL " + str(os.getuid()).encode().hex().encode() + b"\r\nBEGIN\r\n")
        for it in links:
            if not it.recv(64).endswith(b"\r\n"):
                sys.exit("scripts/bench: a handshake wasn't answered whole")
        if not takes:
            yield
            return
        numbers = [it.fileno() for it in links]
        with ended(subprocess.Popen([sys.executable, "-c", TAKER, *map(str, numbers)], pass_fds=numbers)):
            yield


def stores(talk, program, here, takes):
    """The median nanoseconds of CreateItem, beside others if it is said whether they take."""
    collection, items = rings(here, FEW)
    with serving(program, here) as (it, path), opened(talk, path, Keyringd) as client:
        client.open_session()
        client.unlock(collection)
        with contextlib.nullcontext() if takes is None else others(path, takes):
            if takes is False:
                blocked(it, client, items)
            calls = [client.create_item(collection, f"new {n}", {"new": f"item{n}"}, b"a new secret") for n in range(STORES)]
            return middle(client.talk_through(calls))


def label(client, items, byte):
    """Sets the label of an item to so many bytes, which each connection is told of."""
    value = ("s", byte * LABEL)
    client.talk_through([client.next(items[0][0], PROPERTIES, "Set", "ssv", [SECRET + "Item", "Label", value])])


def blocked(process, client, items):
    """Has each writer of a connection that takes nothing wait for its socket, and leaves a short label."""
    label(client, items, "x")
    label(client, items, "y")
    label(client, items, "")
    held = 0
    while held != memory(process):
        held = memory(process)
        time.sleep(0.5)
    return held


def labels(talk, program, here):
    """The bytes that each label of an item takes whose signal waits for the other connections."""
    collection, items = rings(here, FEW)
    with serving(program, here) as (it, path), opened(talk, path, Keyringd) as client:
        client.open_session()
        client.unlock(collection)
        with others(path, False):
            before = blocked(it, client, items)
            for _ in range(LABELS):
                label(client, items, "z")
            return (memory(it) - before) / LABELS
