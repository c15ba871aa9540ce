"""`keyringd check` over 3,000 files of ten items, and with a password over 100 files of about 2 MB, on one, two and four
processors: against a program in C that reads the same files and computes their SHA-256, in as many processes, and with the
password against AES, MD5 and the derivation over the same bytes by aes_cbc, md5 and key_derivation."""
import hashlib, os, shutil, sys, time

from benchmarks.derivation import SHA_C
from benchmarks.shared import best, c_program, keyring_file, keyringd, lines_of, rattle_program, run

# the number of files, the items in each, and whether the check is given the password
FOLDERS = {"small": (3000, 10, False), "large": (100, 10000, True)}

# as many as keyringd gives a new collection
ITERATIONS = 10000

PROCESSORS = 1, 2, 4

CRYPTO_PROGRAM = """//! Derives a key with so many iterations, decrypts so many bytes and computes their MD5, all as often as is told, and
//! prints a number.
#![tactic(auto)]

use aes_cbc::Key;
use key_derivation::derive;
use kr_base::Bytes;
use md5::{Digest, Md5};
use std::alloc::Global;
use std::env;

fn once(alloc: Global, iterations: u32, area: &mut [u8]) -> Option<usize> {
    let password = Bytes::from_slice(alloc, b"password").ok()?;
    let derived = derive(password, *b"saltsalt", iterations);
    if area.len() % 16 == 0 {
        Key::new(derived.key()).decrypt_in_place(derived.vector(), area);
    }
    let [first, ..] = Md5::digest(area);
    Some(first as usize)
}

fn run(alloc: Global, count: u32, iterations: u32, size: usize) -> Option<usize> {
    let mut area = vec![in alloc; 7u8; size].ok()?;
    let mut sum = 0usize;
    for _ in 0..count {
        sum = sum.wrapping_add(once(alloc, iterations, area.as_mut_slice())?);
    }
    Some(sum)
}

fn main(rt: HostRuntime) {
    if let Ok(words) = env::args(&rt) {
        let mut words = words;
        let _name = words.next();
        if let (Some(count), Some(iterations), Some(size)) = (words.next(), words.next(), words.next()) {
            let count = count.as_str().parse::<u32>().unwrap_or(0);
            let iterations = iterations.as_str().parse::<u32>().unwrap_or(0);
            let size = size.as_str().parse::<usize>().unwrap_or(0);
            if let Some(number) = run(rt.alloc(), count, iterations, size) {
                let _ = println!(rt; "{number}");
            }
        }
    }
}
"""

# each of several processes takes every so manieth file of the folder, in order; what is printed is the sum of the first bytes
HASHES_C = SHA_C + r"""
#include <dirent.h>
#include <fcntl.h>
#include <sys/mman.h>
#include <sys/stat.h>
#include <sys/wait.h>
#include <unistd.h>
static uint32_t start[8];
static unsigned first_byte(const uint8_t *bytes, size_t count) {
    uint8_t last[128] = {0};
    uint32_t h[8];
    size_t whole = count / 64 * 64, rest = count - whole, end = rest < 56 ? 64 : 128;
    memcpy(h, start, 32);
    for (size_t at = 0; at < whole; at += 64) compress(h, bytes + at);
    memcpy(last, bytes + whole, rest);
    last[rest] = 128;
    for (int i = 0; i < 8; i++) last[end - 1 - i] = (uint64_t)count * 8 >> 8 * i;
    for (size_t at = 0; at < end; at += 64) compress(h, last + at);
    return h[0] >> 24;
}
static unsigned hashed(const char *folder, const char *name) {
    static char path[4096];
    struct stat found;
    snprintf(path, sizeof path, "%s/%s", folder, name);
    int file = open(path, O_RDONLY | O_CLOEXEC);
    if (file < 0 || fstat(file, &found)) exit(1);
    uint8_t *bytes = malloc(found.st_size + 1);
    if (!bytes || read(file, bytes, found.st_size + 1) != found.st_size) exit(1);
    close(file);
    unsigned first = first_byte(bytes, found.st_size);
    free(bytes);
    return first;
}
static int compare(const void *one, const void *two) { return strcmp(*(char **)one, *(char **)two); }
int main(int argc, char **argv) {
    static char *names[4096];
    int count = 0, workers = atoi(argv[2]), failed = 0, ended;
    unsigned sum = 0;
    struct dirent *entry;
    DIR *folder = opendir(argv[1]);
    unsigned *sums = mmap(0, 4096, PROT_READ | PROT_WRITE, MAP_SHARED | MAP_ANONYMOUS, -1, 0);
    constants(start);
    while ((entry = readdir(folder))) if (strstr(entry->d_name, ".keyring")) names[count++] = strdup(entry->d_name);
    closedir(folder);
    qsort(names, count, sizeof *names, compare);
    for (int worker = 0; worker < workers; worker++)
        if (!fork()) {
            for (int i = worker; i < count; i += workers) sums[worker] += hashed(argv[1], names[i]);
            _exit(0);
        }
    while (wait(&ended) > 0) failed |= ended;
    for (int worker = 0; worker < workers; worker++) sum += sums[worker];
    printf("%u\n", sum);
    return failed != 0 || argc < 0;
}
"""


def quickest(words, given, rounds=5):
    """The least seconds of the clock that a run took, and what was printed last."""
    least, printed = None, None
    for _ in range(rounds):
        began = time.monotonic()
        printed = run(words, input=given)
        took = time.monotonic() - began
        least = took if least is None else min(least, took)
    return least, printed


def spent(words, given):
    """The least seconds that the processor spent on a run."""
    return best(words, given=given)[0]


def measure(folder):
    names = ["kr_base", "aes_cbc", "key_derivation"]
    crypto = rattle_program(folder / "crypto", "check_bench", CRYPTO_PROGRAM, lines_of(names), " md5")
    ours, theirs = keyringd(folder / "keyringd"), c_program(folder, "hashes", HASHES_C)
    there = sorted(os.sched_getaffinity(0))
    for name, (count, items, is_asked) in FOLDERS.items():
        place, first = folder / name, folder / f"{name}.keyring"
        place.mkdir()
        area = keyring_file(first, items, iterations=ITERATIONS)
        for number in range(count):
            shutil.copy(first, place / f"{number:04}.keyring")
        data = first.read_bytes()
        mine = [ours, "check", place, *["--password"] * is_asked]
        times = "created 1970-01-01T00:00:00Z, modified 1970-01-01T00:00:00Z"
        wanted = "".join(f"{number:04}.keyring: ok {items} items, {times}\n" for number in range(count))
        total = f"{hashlib.sha256(data).digest()[0] * count}\n"
        given, took = "password\n", {}
        for processors in PROCESSORS:
            if processors > len(there):
                continue
            on = ["taskset", "-c", ",".join(map(str, there[:processors]))]
            took[processors] = []
            for words, text in (mine, wanted), ([theirs, place, processors], total):
                least, printed = quickest([*on, *words], given)
                if printed != text:
                    sys.exit(f"scripts/bench: {words[0]} prints {printed[:200]!r}, and not {text[:200]!r}")
                took[processors].append(least)
        on = ["taskset", "-c", str(there[0])]
        check, hashes = spent([*on, *mine], given), spent([*on, theirs, place, 1], given)
        with_password = " with a password" * is_asked
        print(f"keyringd check of {count:,} files of {len(data):,} bytes{with_password}, on one processor: "
              f"{check / hashes:.2f} of the time of SHA-256 in C ({check * 1e3:.0f} ms)")
        if is_asked:
            alone = spent([*on, crypto, count, ITERATIONS, area], given) - spent([*on, crypto, 0, ITERATIONS, area], given)
            print(f"  {check / alone:.2f} of the time of AES, MD5 and the derivation over the same bytes")
        for processors in list(took)[1:]:
            faster = [took[processors][which] / took[1][which] for which in (0, 1)]
            print(f"  on {processors} processors: {faster[0]:.2f} of the wall-clock time on one (SHA-256 in C: {faster[1]:.2f})")
