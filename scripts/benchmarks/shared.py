"""What the subjects of scripts/bench share: programs that are built, and runs that are measured."""
import hashlib, os, pathlib, resource, shutil, subprocess, sys

ROOT = pathlib.Path(__file__).resolve().parent.parent.parent

# a call of Ping
PING = ("6c01000100000000010000004500000001016f00010000002f0000000000000002017300190000006f72672e667265656465736b746f702e"
        "444275732e5065657200000000000000030173000400000050696e6700000000")

PINGS = 100000


def run(words, **more):
    ran = subprocess.run([str(it) for it in words], capture_output=True, text=True, **more)
    if ran.returncode:
        sys.exit(f"scripts/bench: {words[0]} ended with status {ran.returncode}: {(ran.stdout + ran.stderr)[-800:]}")
    return ran.stdout


def processor_time():
    """The seconds that the processor spent on the programs that were run so far. `os.times` counts in hundredths of a second."""
    used = resource.getrusage(resource.RUSAGE_CHILDREN)
    return used.ru_utime + used.ru_stime


def best(words, rounds=5, given=None):
    """The least seconds that the processor spent on some runs, and what was printed. `given` is the text of their input."""
    least, printed = None, None
    for _ in range(rounds):
        before = processor_time()
        printed = run(words, input=given)
        took = processor_time() - before
        least = took if least is None else min(least, took)
    return least, printed


def most_memory(words):
    """The most bytes that a run held at once."""
    process = subprocess.Popen([str(it) for it in words], stdout=subprocess.DEVNULL)
    _, status, used = os.wait4(process.pid, 0)
    process.returncode = os.waitstatus_to_exitcode(status)
    if process.returncode:
        sys.exit(f"scripts/bench: {words[0]} ended with status {process.returncode}")
    return used.ru_maxrss * 1024


def peak(words, given=os.devnull):
    """The most bytes that a run held at once, over the bytes of a file. A small process starts it, since what the starting one
    holds counts too."""
    program = "import resource, subprocess, sys; subprocess.run(sys.argv[1:], check=True, capture_output=True); print(resource.getrusage(resource.RUSAGE_CHILDREN).ru_maxrss)"
    with open(given, "rb") as bytes_of:
        return int(run([sys.executable, "-c", program, *words], stdin=bytes_of)) * 1024


def laid_out(folder, lines):
    """A scratch repository with these crates, without the wrong bodies."""
    for line in lines:
        name = line.partition(":")[0]
        left_out = shutil.ignore_patterns("out", "must-fail", "wrong-bodies")
        shutil.copytree(ROOT / "crates" / name, folder / "crates" / name, ignore=left_out)
        kept = ROOT / "crates" / name / "out/rlib"
        if kept.is_dir():
            shutil.copytree(kept, folder / "crates" / name / "out/rlib")
    (folder / "crates.txt").write_text("\n".join(lines) + "\n")
    shutil.copy2(ROOT / "HANDLES", folder / "HANDLES")
    run(["git", "init", "-q", folder])


def built(own):
    """The program of a crate, proved and built by `rt run`, which also runs it; how that run ends doesn't matter."""
    ran = subprocess.run(["rt", "run"], cwd=own, stdin=subprocess.DEVNULL, capture_output=True, text=True)
    if not (own / "out" / own.name).is_file():
        sys.exit(f"scripts/bench: rt run built no {own.name}: {(ran.stdout + ran.stderr)[-800:]}")
    return own / "out" / own.name


def rattle_program(folder, name, text, lines, more="", proofs=None):
    """The built program, in a scratch repository over these crates. It takes over the libraries that `rt check` or `rt run`
    built here. `proofs` has the program's own proof files, by their paths."""
    laid_out(folder, lines)
    own = folder / "crates" / name
    for path, file in {"src/main.rt": text, **{f"proofs/{it}": proof for it, proof in (proofs or {}).items()}}.items():
        (own / path).parent.mkdir(parents=True, exist_ok=True)
        (own / path).write_text(file)
    with open(folder / "crates.txt", "a") as listed:
        listed.write(f"{name}: " + " ".join(line.partition(":")[0] for line in lines) + more + "\n")
    run(["rt", "fmt"], cwd=own)
    return built(own)


def keyringd(folder):
    """The program of this repository, built in a scratch repository over the libraries that were built here."""
    laid_out(folder, lines_of(["keyringd"]))
    return built(folder / "crates/keyringd")


def c_program(folder, name, text, *more):
    (folder / f"{name}.c").write_text(text)
    run(["gcc", "-O2", "-o", folder / name, folder / f"{name}.c", *more])
    return folder / name


def lines_of(names):
    """The lines of crates.txt for these crates and all crates below them."""
    lines = [line for line in (ROOT / "crates.txt").read_text().splitlines() if line and not line.startswith("#")]
    below = {line.partition(":")[0]: line.partition(":")[2].split() for line in lines}
    wanted = list(names)
    for it in wanted:
        if it not in below:
            sys.exit(f"scripts/bench: crates.txt lacks {it}")
        wanted += [under for under in below[it] if under in below and under not in wanted]
    return [line for line in lines if line.partition(":")[0] in wanted]


def escaped(text):
    return "".join(f"\\x{byte:02x}" for byte in bytes.fromhex(text))


def keyring_file(path, items, shared=False, iterations=1):
    """Writes a keyring file of so many items under the password of the program, and gives the length of its area. If it is
    asked for, each item has a second pair, which all have."""
    number = lambda n: n.to_bytes(4, "big")
    string = lambda text: number(len(text)) + text
    md5 = lambda text: hashlib.md5(text).hexdigest().encode()

    def attributes(n, shown):
        pairs = [(b"group", b"all")] * shared + [(b"user", b"user%d@example.org" % n)]
        return number(len(pairs)) + b"".join(string(name) + number(0) + string(shown(value)) for name, value in pairs)

    area = b"".join(string(b"Password of user%d" % n) + string(b"the secret of user %d" % n) + bytes(16) + number(0xffffffff) + bytes(16)
                    + attributes(n, bytes) + number(0) for n in range(items))
    area += bytes(-len(area) % 16)
    area = hashlib.md5(area).digest() + area
    digest = hashlib.sha256(b"passwordsaltsalt").digest()
    for _ in range(iterations - 1):
        digest = hashlib.sha256(digest).digest()
    words = ["openssl", "enc", "-aes-128-cbc", "-nopad", "-K", digest[:16].hex(), "-iv", digest[16:].hex()]
    hidden = subprocess.run(words, input=area, capture_output=True, check=True).stdout
    clear = b"".join(number(n) + number(0) + attributes(n, md5) for n in range(items))
    path.write_bytes(b"GnomeKeyring\n\r\0\n" + bytes(4) + string(b"login") + bytes(16) + bytes(8) + number(iterations) + b"saltsalt" + bytes(16)
                     + number(items) + clear + number(len(area)) + hidden)
    return len(area)
