"""`keyringd serve` on its socket, beside gnome-keyring-daemon behind its dbus-daemon, with one and with eight clients at once:
round trips of Ping and GetSecret in a second, and their latency at the median and at the 99th percentile; CreateItem among
200, 2,000, and 10,000 items; memory for each of 255 idle connections, and the processor's time meanwhile; and what a thousand
connections, one after the other, leave, also while an older connection stays. Without GNOME keyring the figures are of keyringd
alone."""
import contextlib, os, pathlib, socket, subprocess, threading, time

from benchmarks.clients import NAME, Gnome, Keyringd, connect, ended, gnome_keyring, last, library, memory, middle, rings, seconds, until
from benchmarks.shared import keyringd

SIZES = 200, 2000, 10000
ITEMS = 200
CALLS = 4000
STORES = 20
IDLE = 255
ONE_AFTER_ANOTHER = 1000


@contextlib.contextmanager
def serving(program, folder):
    """keyringd with the keyrings of this folder, and the path of its socket."""
    path = folder / "socket"
    words = [program, "serve", folder / "rings", path, "--uid", str(os.getuid())]
    with ended(subprocess.Popen(words, stdin=subprocess.DEVNULL)) as it:
        until(lambda: answers(path), "keyringd has no socket")
        yield it, str(path)


def answers(path):
    with socket.socket(socket.AF_UNIX) as it:
        return it.connect_ex(str(path)) == 0


@contextlib.contextmanager
def opened(talk, path, kind, *name):
    """A connection to this socket, and a client of this kind over it."""
    with connect(path) as link:
        yield kind(talk, link.fileno(), link.fileno(), *name)


def measure(folder):
    talk, program = library(folder), keyringd(folder / "keyringd")
    rows = {}
    for size in SIZES:
        here = folder / f"ours{size}"
        collection, items = rings(here, size)
        with serving(program, here) as (it, path):
            rows["keyringd", size] = stores(talk, path, collection, Keyringd)
            if size == ITEMS:
                ours = rates(talk, path, items, Keyringd)
                idle_bytes, idle_seconds = idle([it], path)
                left = one_after_another(talk, it, path)
        here = folder / f"theirs{size}"
        collection, items = rings(here, size)
        with gnome_keyring(here) as peer:
            if peer:
                rows["gnome", size] = stores(talk, peer[2], collection, Gnome, NAME)
                if size == ITEMS:
                    theirs = rates(talk, peer[2], items, Gnome, NAME)
                    idle_theirs = idle(peer[:2], peer[2])[0]
    beside = any(kind == "gnome" for kind, _ in rows)
    for title, (rate, half, most) in ours.items():
        peer = f"; GNOME keyring {rate / theirs[title][0]:.1f} times fewer, {theirs[title][1] / half:.1f} and {theirs[title][2] / most:.1f} times as long" if beside else ""
        print(f"keyringd serve, {title}: {rate:.0f} round trips in a second, {half / 1000:.0f} us at the median, {most / 1000:.0f} us at the 99th percentile{peer}")
    for size in SIZES:
        mine = rows["keyringd", size]
        peer = f", {rows['gnome', size] / mine:.1f} times as long with GNOME keyring" if beside else ""
        print(f"keyringd serve, CreateItem, {size} items: {mine / 1000:.0f} us{peer}")
    peer = f", {idle_theirs / idle_bytes:.2f} times as much with GNOME keyring and dbus-daemon" if beside else ""
    print(f"keyringd serve, an idle connection: {idle_bytes / 1024:.1f} KiB with its threads' stacks{peer}; {IDLE} of them use {idle_seconds:.3f} of a processor")
    for title, (grown, threads, descriptors) in left.items():
        print(f"keyringd serve, {ONE_AFTER_ANOTHER} connections one after the other{title}: each leaves {grown:.0f} bytes, and all {threads} threads and {descriptors} descriptors")


def stores(talk, path, collection, kind, *name):
    """The median nanoseconds of CreateItem, once the collection is unlocked."""
    with opened(talk, path, kind, *name) as client:
        client.open_session()
        client.unlock(collection)
        calls = [client.create_item(collection, f"new {n}", {"new": f"item{n}"}, b"a new secret") for n in range(STORES)]
        return middle(client.talk_through(calls))


def rates(talk, path, items, kind, *name):
    """Round trips in a second, and the latency at the median and at the 99th percentile, by what is called and by how many."""
    rows = {}
    for count in 1, 8:
        with contextlib.ExitStack() as stack:
            clients = [stack.enter_context(opened(talk, path, kind, *name)) for _ in range(count)]
            for client in clients:
                client.open_session()
            for title, calls in [
                    ("Ping", [[it.ping() for _ in range(CALLS)] for it in clients]),
                    ("GetSecret", [[it.get_secret(items[n * 7919 % len(items)][0]) for n in range(CALLS)] for it in clients])]:
                begin, took = time.monotonic(), [None] * count

                def work(at):
                    took[at] = clients[at].talk_through(calls[at])

                threads = [threading.Thread(target=work, args=(at,)) for at in range(count)]
                for it in threads:
                    it.start()
                for it in threads:
                    it.join()
                all_took = sum(took, [])
                rows[f"{title} of {count} client{'s' * (count > 1)}"] = len(all_took) / (time.monotonic() - begin), middle(all_took), last(all_took)
    return rows


def idle(processes, path):
    """The bytes for each of so many connections after their handshake, and the share of a processor that they use."""
    before = sum(map(memory, processes))
    links = [connect(path) for _ in range(IDLE)]
    for it in links:
        it.sendall(b"\0AUTH EXTERNAL " + str(os.getuid()).encode().hex().encode() + b"\r\n")
        it.recv(100)
        it.sendall(b"BEGIN\r\n")
    time.sleep(1)
    grown, spent, begin = sum(map(memory, processes)) - before, sum(map(seconds, processes)), time.monotonic()
    time.sleep(4)
    share = (sum(map(seconds, processes)) - spent) / (time.monotonic() - begin)
    for it in links:
        it.close()
    return grown / IDLE, share


def one_after_another(talk, process, path):
    """What so many connections leave, with no other connection and with an older one: bytes for each of them, and how many more
    threads and descriptors there are."""
    def counts():
        return tuple(len(list(pathlib.Path(f"/proc/{process.pid}/{it}").iterdir())) for it in ("task", "fd"))

    def connections(count):
        for _ in range(count):
            with opened(talk, path, Keyringd) as client:
                client.talk_through([client.ping()])
        time.sleep(0.5)

    rows = {}
    for title in "", ", while an older one stays":
        with contextlib.ExitStack() as stack:
            if title:
                stack.enter_context(opened(talk, path, Keyringd))
            connections(ONE_AFTER_ANOTHER)
            held, there = memory(process), counts()
            connections(ONE_AFTER_ANOTHER)
            now = counts()
            rows[title] = (memory(process) - held) / ONE_AFTER_ANOTHER, now[0] - there[0], now[1] - there[1]
    return rows
