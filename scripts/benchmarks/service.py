"""One client of `keyringd stdio`, over pipes, beside one of gnome-keyring-daemon behind its dbus-daemon, over the same keyring
file of 200, 2,000, and 10,000 items, which is on this folder's disk: unlocking, GetSecret, SearchItems with one match, and
CreateItem, by the median of calls that are sent one after the other; and memory at the end. Without GNOME keyring the figures
are of keyringd alone."""
import os, subprocess

from benchmarks.clients import NAME, Gnome, Keyringd, connect, ended, gnome_keyring, library, memory, middle, rings
from benchmarks.shared import keyringd

SIZES = 200, 2000, 10000
CALLS = 1000
STORES = 20
UNLOCKS = 5


def measure(folder):
    talk, program = library(folder), keyringd(folder / "keyringd")
    rows = {}
    for size in SIZES:
        here = folder / f"ours{size}"
        collection, items = rings(here, size)
        words = [program, "stdio", here / "rings", str(os.getuid())]
        with ended(subprocess.Popen(words, stdin=subprocess.PIPE, stdout=subprocess.PIPE, bufsize=0)) as it:
            client = Keyringd(talk, it.stdout.fileno(), it.stdin.fileno())
            rows["keyringd", size] = conversation(client, collection, items) + [memory(it)]
        here = folder / f"theirs{size}"
        collection, items = rings(here, size)
        with gnome_keyring(here) as peer:
            if peer:
                link = connect(peer[2])
                client = Gnome(talk, link.fileno(), link.fileno(), NAME)
                rows["gnome", size] = conversation(client, collection, items) + [memory(peer[0])]
                link.close()
    titles = "unlocking", "GetSecret", "SearchItems with one match", "CreateItem", "memory"
    for at, title in enumerate(titles):
        for size in SIZES:
            mine, peer = rows["keyringd", size][at], rows.get(("gnome", size))
            unit = f"{mine / 2 ** 20:.1f} MiB" if title == "memory" else f"{mine / 1000:.0f} us"
            beside = f", {peer[at] / mine:.1f} times as much with GNOME keyring" if peer else ""
            print(f"keyringd stdio, {title}, {size} items: {unit}{beside}")
        grows = rows["keyringd", SIZES[-1]][at] / rows["keyringd", SIZES[0]][at]
        print(f"keyringd stdio, {title}: {grows:.2f} times as much with {SIZES[-1]} items as with {SIZES[0]}")


def conversation(client, collection, items):
    """The median nanoseconds of unlocking, and of each call."""
    client.open_session()
    found = []
    for _ in range(UNLOCKS):
        found.append(client.unlock(collection))
        client.talk_through([client.lock(collection)])
    client.unlock(collection)
    took = [middle(found)]
    at = [items[n * 7919 % len(items)] for n in range(CALLS)]
    took.append(middle(client.talk_through([client.get_secret(path) for path, _ in at])))
    took.append(middle(client.talk_through([client.search(attributes) for _, attributes in at])))
    calls = [client.create_item(collection, f"new {n}", {"new": f"item{n}"}, b"a new secret") for n in range(STORES)]
    took.append(middle(client.talk_through(calls)))
    return took
