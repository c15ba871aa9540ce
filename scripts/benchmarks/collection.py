"""A collection in a real folder. Among 200, 2,000 and 10,000 items (the last about 2 MB) the secret of one is set, and one
is added and removed, against AES and MD5 of the area by aes_cbc and md5, and a program in C that writes, syncs and renames
the same bytes and syncs the folder; the collection is unlocked, against AES, MD5 and reading the area; 10,000 items with
two pairs each are searched while they are locked, for a pair that one has and for one that all have, against comparing
each of them; and the memory of an open collection, and of the index of hashes."""
import os, resource, shutil, statistics, sys

from benchmarks.shared import c_program, keyring_file, lines_of, rattle_program, run

COLLECTION_PROGRAM = """//! Changes, unlocks or searches a collection in a folder as often as is told, or runs what that stands on over its
//! file, and prints a number while it has what it made.
#![tactic(auto)]

ghost use Rattle.std.specs.Prelude.{◌≡◌, []};

use aes_cbc::Key;
use collection_store::{Change, Changed, Collection};
use folder_store::{Ring, load};
use hashed_index::{HashedIndex, all_matching};
use key_derivation::{Derived, derive};
use keyring_file::{Clear, FullItem, read_area, read_clear};
use kr_base::{Attributes, Bytes, ItemId, Text};
use kr_outside::{Folder, Host, Slot};
use md5::{Digest, Md5};
use real_edges::RealHost;
use std::alloc::Global;
use std::{env, fs};

fn text(alloc: Global, words: &str) -> Option<Text> {
    Text::from_str(alloc, words).ok()?
}

fn pair(alloc: Global, name: &str, value: &str) -> Option<Attributes> {
    let mut pairs = Vec::new(alloc);
    pairs.push((text(alloc, name)?, text(alloc, value)?)).ok()?;
    Attributes::from_pairs(alloc, pairs).ok()
}

// A pair that one item has, or one that all have.
fn wanted(alloc: Global, what: &str) -> Option<Attributes> {
    if what.ends_with("one") {
        return pair(alloc, "user", "user4321@example.org");
    }
    pair(alloc, "group", "all")
}

fn key(alloc: Global) -> Option<Derived> {
    let password = Bytes::from_slice(alloc, b"password").ok()?;
    Some(derive(password, *b"saltsalt", 1))
}

fn secret(alloc: Global, id: ItemId) -> Option<Change> {
    let value = Bytes::from_slice(alloc, b"another secret of them").ok()?;
    let content = text(alloc, "text/plain")?;
    Some(Change::SetSecret { id, value, content })
}

fn addition(alloc: Global) -> Option<Change> {
    let label = text(alloc, "Password of someone")?;
    let attributes = pair(alloc, "user", "other@example.org")?;
    let value = Bytes::from_slice(alloc, b"another secret of them").ok()?;
    let content = text(alloc, "text/plain")?;
    Some(Change::Add {
        label,
        attributes,
        value,
        content,
        replace: false,
    })
}

fn changed<S: Slot>(collection: &mut Collection<S>, change: Change) -> Option<Changed> {
    if !collection.is_open() {
        return None;
    }
    collection.change(change, 1000, 1048576).ok()
}

// Adds an item and removes it.
fn added<S: Slot>(alloc: Global, collection: &mut Collection<S>) -> Option<Changed> {
    match changed(collection, addition(alloc)?)? {
        Changed::Made(id) => changed(collection, Change::Remove { id }),
        _ => None,
    }
}

fn unlocked<S: Slot>(alloc: Global, collection: &mut Collection<S>) -> bool {
    match key(alloc) {
        Some(key) => {
            if !collection.fits(&key) {
                return false;
            }
            collection.unlock(key).is_ok()
        }
        None => false,
    }
}

fn again<S: Slot>(alloc: Global, collection: &mut Collection<S>) -> bool {
    collection.lock();
    unlocked(alloc, collection)
}

fn set<S: Slot>(alloc: Global, collection: &mut Collection<S>, id: ItemId) -> bool {
    match secret(alloc, id) {
        Some(change) => changed(collection, change).is_some(),
        None => false,
    }
}

// Whether one round was done. The ids of the file's items begin at 0.
fn done<S: Slot>(alloc: Global, collection: &mut Collection<S>, what: &str, id: u32) -> bool {
    match what {
        "secret" => set(alloc, collection, ItemId(id)),
        "add" => added(alloc, collection).is_some(),
        _ => again(alloc, collection),
    }
}

// How many rounds were done.
fn rounds<S: Slot>(
    alloc: Global,
    collection: &mut Collection<S>,
    what: &str,
    count: u32,
    items: u32,
) -> usize {
    if !unlocked(alloc, collection) {
        return 0;
    }
    for round in 0..count {
        if !done(
            alloc,
            collection,
            what,
            round.wrapping_mul(7919) % items.max(1),
        ) {
            return 0;
        }
    }
    count as usize
}

// How many items some searches found.
fn found<S: Slot>(collection: &Collection<S>, wanted: &Attributes, count: u32) -> Option<usize> {
    let mut found = 0usize;
    for _ in 0..count {
        found = found.saturating_add(collection.search(wanted).ok()?.len());
    }
    Some(found)
}

fn compared(alloc: Global, clear: &Clear, wanted: &Attributes, count: u32) -> Option<usize> {
    let mut found = 0usize;
    for _ in 0..count {
        let ids = all_matching(alloc, clear.items.as_slice(), wanted).ok()?;
        found = found.saturating_add(ids.len());
    }
    Some(found)
}

fn collection_of<S: Slot>(alloc: Global, ring: Ring<S>) -> Option<Collection<S>> {
    let (_stem, cell, clear) = ring.into_parts();
    Collection::loaded(alloc, cell, clear).ok()
}

fn clear_of(alloc: Global, file: &[u8]) -> Option<Clear> {
    match read_clear(alloc, file) {
        Ok((clear, _)) => Some(clear),
        Err(_) => None,
    }
}

fn encrypted(key: &Derived, blocks: &mut [u8]) {
    if blocks.len() % 16 == 0 {
        Key::new(key.key()).encrypt_in_place(key.vector(), blocks);
    }
}

fn decrypted(key: &Derived, blocks: &mut [u8]) {
    if blocks.len() % 16 == 0 {
        Key::new(key.key()).decrypt_in_place(key.vector(), blocks);
    }
}

// The area, which is the end of the file, with its MD5 in front.
fn area_of(alloc: Global, file: &[u8], length: usize) -> Option<Vec<u8>> {
    let start = file.len().checked_sub(length)?;
    let mut area = Vec::from_slice(alloc, &file[start..]).ok()?;
    decrypted(&key(alloc)?, area.as_mut_slice());
    Some(area)
}

fn items_of(alloc: Global, file: &[u8], items: u32, length: usize) -> Option<Vec<FullItem>> {
    let area = area_of(alloc, file, length)?;
    read_area(alloc, area.as_slice(), items as usize).ok()
}

fn read(alloc: Global, file: &[u8], count: u32, items: u32, length: usize) -> Option<usize> {
    let mut found = 0usize;
    for _ in 0..count {
        found = items_of(alloc, file, items, length)?.len();
    }
    Some(found)
}

fn digests(key: &Derived, blocks: &mut [u8], count: u32) -> usize {
    let mut sum = 0u8;
    for _ in 0..count {
        let [first, ..] = Md5::digest(&*blocks);
        sum = sum.wrapping_add(first);
        encrypted(key, blocks);
    }
    sum as usize
}

fn sealed(alloc: Global, file: &[u8], count: u32, length: usize) -> Option<usize> {
    let mut area = area_of(alloc, file, length)?;
    Some(digests(&key(alloc)?, area.as_mut_slice(), count))
}

fn tell(rt: HostRuntime, number: usize) {
    let _ = println!(rt; "{number}");
}

// Prints with the clear part in memory, and its index too if it is wanted.
fn shown(rt: HostRuntime, clear: &Clear, what: &str) -> Option<()> {
    if what == "clear" {
        tell(rt, clear.items.len());
        return Some(());
    }
    let _index = HashedIndex::new(rt.alloc(), clear.items.as_slice()).ok()?;
    tell(rt, clear.items.len());
    Some(())
}

fn clear_part(rt: HostRuntime, what: &str, count: u32, file: &[u8]) -> Option<()> {
    let clear = clear_of(rt.alloc(), file)?;
    if what.starts_with("compare") {
        tell(
            rt,
            compared(rt.alloc(), &clear, &wanted(rt.alloc(), what)?, count)?,
        );
        return Some(());
    }
    shown(rt, &clear, what)
}

// What the collection stands on.
fn part(
    rt: HostRuntime,
    what: &str,
    count: u32,
    path: &str,
    items: u32,
    length: usize,
) -> Option<()> {
    let file = fs::read(&rt, path).ok()?;
    match what {
        "seal" => tell(rt, sealed(rt.alloc(), file.as_slice(), count, length)?),
        "read" => tell(rt, read(rt.alloc(), file.as_slice(), count, items, length)?),
        "file" => tell(rt, file.len()),
        _ => clear_part(rt, what, count, file.as_slice())?,
    }
    Some(())
}

fn searched<S: Slot>(
    rt: HostRuntime,
    collection: &Collection<S>,
    what: &str,
    count: u32,
) -> Option<()> {
    let wanted = wanted(rt.alloc(), what)?;
    tell(rt, found(collection, &wanted, count)?);
    Some(())
}

fn worked<S: Slot>(
    rt: HostRuntime,
    collection: &mut Collection<S>,
    what: &str,
    count: u32,
    items: u32,
) -> Option<()> {
    if what.starts_with("find") {
        return searched(rt, collection, what, count);
    }
    tell(rt, rounds(rt.alloc(), collection, what, count, items));
    Some(())
}

fn with_ring<S: Slot>(
    rt: HostRuntime,
    ring: Ring<S>,
    what: &str,
    count: u32,
    items: u32,
) -> Option<()> {
    let mut collection = collection_of(rt.alloc(), ring)?;
    worked(rt, &mut collection, what, count, items)
}

// Works on the last collection of a folder.
fn in_folder<F: Folder>(
    rt: HostRuntime,
    folder: &mut F,
    what: &str,
    count: u32,
    items: u32,
) -> Option<()>
    requires { F.made folder.old ≡ [] }
{
    let mut loaded = load(rt.alloc(), folder).ok()?;
    with_ring(rt, loaded.rings.pop()?, what, count, items)
}

fn with_host<H: Host>(
    rt: HostRuntime,
    host: &mut H,
    path: &str,
    what: &str,
    count: u32,
    items: u32,
) -> Option<()> {
    let mut folder = host.folder(path).ok()?;
    in_folder(rt, &mut folder, what, count, items)
}

fn on_disk(rt: HostRuntime, what: &str, count: u32, path: &str, items: u32) -> Option<()> {
    let mut host = RealHost::new(rt);
    with_host(rt, &mut host, path, what, count, items)
}

fn number(word: &str) -> u32 {
    word.parse::<u32>().unwrap_or(0)
}

fn run(rt: HostRuntime, place: &str, what: &str, count: u32, path: &str, items: u32, length: u32) {
    let _ = match place {
        "disk" => on_disk(rt, what, count, path, items),
        _ => part(rt, what, count, path, items, length as usize),
    };
}

fn main(rt: HostRuntime) {
    if let Ok(words) = env::args(&rt) {
        let mut words = words;
        let _name = words.next();
        if let (Some(place), Some(what), Some(path)) = (words.next(), words.next(), words.next())
            && let (Some(count), Some(items), Some(length)) = (
                words.next(),
                words.next(),
                words.next(),
            )
        {
            run(
                rt,
                place.as_str(),
                what.as_str(),
                number(count.as_str()),
                path.as_str(),
                number(items.as_str()),
                number(length.as_str()),
            );
        }
    }
}
"""

COLLECTION_PROOF = """use Rattle.collection_bench.proofs.collection_of.Goals as goal

-- the parts are those of the file
pub loaded-requires : goal.loaded-requires
loaded-requires g c = rw (c.into_parts-stem.ensures.cell, c.into_parts-stem.ensures.clear) c.into_parts-stem.ensures.shown
"""

# what a change asks of the disk
DISK_C = r"""
#include <fcntl.h>
#include <stdio.h>
#include <stdlib.h>
#include <string.h>
#include <unistd.h>
static void check(int failed) { if (failed) { perror("disk"); exit(1); } }
int main(int argc, char **argv) {
    char name[4096], temporary[4096];
    size_t size = strtoul(argv[3], 0, 10);
    char *bytes = malloc(size + 1);
    memset(bytes, 7, size + 1);
    snprintf(name, sizeof name, "%s/disk.keyring", argv[2]);
    snprintf(temporary, sizeof temporary, "%s/disk.keyring.tmp", argv[2]);
    for (int i = atoi(argv[1]); i > 0; i--) {
        int file = open(temporary, O_WRONLY | O_CREAT | O_EXCL | O_CLOEXEC, 0600);
        check(file < 0);
        for (size_t place = 0; place < size;) {
            ssize_t count = write(file, bytes + place, size - place);
            check(count <= 0);
            place += count;
        }
        check(fsync(file));
        close(file);
        check(rename(temporary, name));
        int folder = open(argv[2], O_RDONLY | O_CLOEXEC);
        check(folder < 0 || fsync(folder));
        close(folder);
    }
    printf("%s\n", argv[1]);
    return argc < 0;
}
"""

# Loaded before the program: at each print, the bytes that are allocated then, with what the allocator adds to each piece, and
# the most bytes that the process had in memory so far.
HELD_C = r"""
#include <malloc.h>
#include <stdio.h>
#include <sys/syscall.h>
#include <unistd.h>
static size_t most(void) {
    char line[256];
    size_t found = 0;
    FILE *status = fopen("/proc/self/status", "r");
    while (status && fgets(line, sizeof line, status)) sscanf(line, "VmHWM: %zu", &found);
    if (status) fclose(status);
    return found * 1024;
}
ssize_t write(int file, const void *bytes, size_t count) {
    if (file == 1) {
        struct mallinfo2 found = mallinfo2();
        char numbers[64];
        int length = snprintf(numbers, sizeof numbers, "%zu %zu\n", found.uordblks + found.hblkhd, most());
        return syscall(SYS_write, 1, numbers, length) < 0 ? -1 : (ssize_t)count;
    }
    return syscall(SYS_write, file, bytes, count);
}
"""


def timed(words, rounds=5):
    """The least seconds that the processor spent on some runs in the program, and in the program and the system."""
    own, whole = [], []
    for _ in range(rounds):
        before = resource.getrusage(resource.RUSAGE_CHILDREN)
        run(words)
        after = resource.getrusage(resource.RUSAGE_CHILDREN)
        own.append(after.ru_utime - before.ru_utime)
        whole.append(own[-1] + after.ru_stime - before.ru_stime)
    return min(own), min(whole)


def apart(more, none, count):
    """Seconds for one round, without what a program does before the first."""
    return [(many - few) / count for many, few in zip(timed(more), timed(none))]


class Program:
    """The program over the files of the folder."""

    def __init__(self, folder, ours):
        self.folder, self.ours, self.sizes, self.areas = folder, ours, {}, {}
        (folder / "disk").mkdir()
        (folder / "peer").mkdir()
        (folder / "none.keyring").write_bytes(b"")
        self.areas["none"] = 0
        for name, items in ("200", 200), ("2000", 2000), ("10000", 10000), ("shared", 10000):
            self.areas[name] = keyring_file(folder / f"{name}.keyring", items, name == "shared")
            self.sizes[name] = (folder / f"{name}.keyring").stat().st_size

    def words(self, place, what, count, name):
        """A call of the program; in the folder is the one file, as it was."""
        path = self.folder / f"{name}.keyring"
        if place == "disk":
            path = self.folder / "disk"
            shutil.copy(self.folder / f"{name}.keyring", path / "login.keyring")
        items = int(name) if name.isdigit() else 10000
        return [self.ours, place, what, path, count, items, self.areas[name]]

    def spent(self, place, what, count, name, wanted=None):
        """Seconds for one round, which prints what is wanted."""
        printed = run(self.words(place, what, count, name)).strip()
        if wanted is not None and printed != str(wanted):
            sys.exit(f"scripts/bench: {place} {what} of {name} prints {printed}, and not {wanted}")
        more = timed(self.words(place, what, count, name))
        none = timed(self.words(place, what, 0, name))
        return [(many - few) / count for many, few in zip(more, none)]

    def held(self, place, what, count, name):
        """The bytes that the program has allocated when it prints, and the most that it had in memory until then."""
        printed = run(self.words(place, what, count, name), env={**os.environ, "LD_PRELOAD": str(self.folder / "held.so")})
        return [int(it) for it in printed.split()]


def changes(program, peer):
    small = {}
    for name in "200", "2000", "10000":
        items, size = int(name), program.sizes[name]
        rounds = 600000 // items
        calls = rounds // 5 + 60
        own = program.spent("part", "seal", rounds, name)[0]
        disk = apart([peer, calls, program.folder / "peer", size], [peer, 0, program.folder / "peer", size], calls)[1]
        print(f"collection_store, {items} items in {size} bytes: AES and MD5 of the area {own * 1e3:.3f} ms, the disk's calls {disk * 1e3:.3f} ms")
        for what, each, told in ("secret", 1, "the secret of an item set"), ("add", 2, "an item added, or removed"):
            user, whole = (it / each for it in program.spent("disk", what, calls, name, calls))
            times = whole / small.get(what, whole)
            small[what] = whole
            print(f"  {told}: {user / own:.2f} of AES and MD5 in the program, and {(whole - disk) / own:.2f} with the system's work beside that for the peer")
            print(f"    ({user * 1e3:.3f} and {whole * 1e3:.3f} ms); {times:.2f} of the time among the number of items before this one")


def in_turns(program, name, rounds, turns=30):
    """The seconds of one round of reading the area, and of unlocking and locking, with the system's work: the medians of
    short runs of each in turns. What both do beside AES waits for memory, and takes longer while other programs run."""
    ways = ("part", "read"), ("disk", "unlock")
    more, none = ({way: [] for way in ways} for _ in range(2))
    for _ in range(turns):
        for way in ways:
            more[way].append(timed(program.words(*way, rounds, name), rounds=1)[1])
            none[way].append(timed(program.words(*way, 0, name), rounds=1)[1])
    return [(statistics.median(more[way]) - statistics.median(none[way])) / rounds for way in ways]


def unlocking(program):
    small = None
    for name in "200", "2000", "10000":
        items = int(name)
        rounds = 40000 // items
        printed = run(program.words("disk", "unlock", rounds, name)).strip()
        if printed != str(rounds):
            sys.exit(f"scripts/bench: unlocking {name} items prints {printed}, and not {rounds}")
        read, both = in_turns(program, name, rounds)
        small = small or both / items
        print(f"collection_store, {items} items locked and unlocked: {both / read:.2f} of AES, MD5 and reading the area ({read * 1e3:.3f} ms);")
        print(f"  for each item {both / items / small:.2f} of among 200")


def searches(program):
    for what, found, told in ("one", 1, "a pair that one of 10,000 locked items has"), ("all", 10000, "a pair that all of them have"):
        few, many = (40, 40000) if found == 1 else (40, 40)
        index = program.spent("disk", f"find_{what}", many, "shared", many * found)[0]
        each = program.spent("part", f"compare_{what}", few, "shared", few * found)[0]
        print(f"collection_store, a search for {told}: {index / each:.5f} of comparing each ({index * 1e6:.1f} and {each * 1e6:.0f} us)")
    clear, index = (program.held("part", it, 0, "shared")[0] for it in ("clear", "index"))
    print(f"hashed_index: {(index - clear) / 20000:.1f} bytes a pair")


def memory(program):
    size, (start, base) = program.sizes["10000"], program.held("part", "file", 0, "none")
    cases = (("find_one", 0, "locked"), ("unlock", 0, "unlocked"), ("secret", 1, "after a change"), ("secret", 20, "after 20 changes"), ("add", 1, "after an item was added and removed"))
    for what, count, told in cases:
        held, most = program.held("disk", what, count, "10000")
        print(f"collection_store, memory of 10,000 items in {size} bytes {told}: {(held - start) / size:.2f} times the file, and the most at once {(most - base) / size:.2f}")


def figures(folder, ours):
    peer = c_program(folder, "peer_program", DISK_C)
    (folder / "held.c").write_text(HELD_C)
    run(["gcc", "-O2", "-shared", "-fPIC", "-o", folder / "held.so", folder / "held.c"])
    program = Program(folder, ours)
    changes(program, peer)
    unlocking(program)
    searches(program)
    memory(program)


def measure(folder):
    names = ["collection_store", "folder_store", "real_edges"]
    proofs = {"collection_of/Answers.antt": COLLECTION_PROOF}
    figures(folder, rattle_program(folder / "rattle", "collection_bench", COLLECTION_PROGRAM, lines_of(names), " md5", proofs))
