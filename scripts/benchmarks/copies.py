"""How often `keyringd stdio` copies a secret of 1,000,000 bytes: while an item is made with it, while it is set, and while
GetSecret returns it. What the C library's memcpy, memmove and realloc copy in pieces of at least 4,096 bytes is counted by a
library that is loaded before it; reading from a pipe, writing to one and encrypting aren't copies of that kind."""
import mmap, os, struct, subprocess

from benchmarks.clients import SECRET, Keyringd, ended, library, rings
from benchmarks.shared import keyringd, run

# Counts the bytes that are copied, in a file that the environment names. It copies by itself, since the C library's own
# functions would be these.
COUNTING_C = r"""
#define _GNU_SOURCE
#include <dlfcn.h>
#include <fcntl.h>
#include <malloc.h>
#include <stdlib.h>
#include <string.h>
#include <sys/mman.h>
static volatile unsigned long *counted;
static void *(*reallocate)(void *, size_t);
__attribute__((constructor)) static void begin(void) {
    int file = open(getenv("COPIED"), O_RDWR);
    void *at = mmap(0, 4096, PROT_READ | PROT_WRITE, MAP_SHARED, file, 0);
    reallocate = dlsym(RTLD_NEXT, "realloc");
    counted = at;
}
static void count(size_t size) { if (counted && size >= 4096) *counted += size; }
void *memmove(void *to, const void *from, size_t size) {
    void *left = to;
    const void *source = from;
    count(size);
    if (to <= from || (char *)from + size <= (char *)to) __asm__ volatile("rep movsb" : "+D"(left), "+S"(source), "+c"(size) : : "memory");
    else {
        left = (char *)to + size - 1, source = (char *)from + size - 1;
        __asm__ volatile("std; rep movsb; cld" : "+D"(left), "+S"(source), "+c"(size) : : "memory");
    }
    return to;
}
void *memcpy(void *to, const void *from, size_t size) { return memmove(to, from, size); }
void *realloc(void *old, size_t size) {
    size_t held = old ? malloc_usable_size(old) : 0;
    void *made = reallocate ? reallocate(old, size) : 0;
    if (made != old) count(held < size ? held : size);
    return made;
}
"""

LENGTH = 1000000


def measure(folder):
    talk, program = library(folder), keyringd(folder / "keyringd")
    (folder / "counting.c").write_text(COUNTING_C)
    run(["gcc", "-O2", "-fno-builtin", "-shared", "-fPIC", "-o", folder / "counting.so", folder / "counting.c", "-ldl"])
    collection, _ = rings(folder, 1)
    (folder / "copied").write_bytes(bytes(4096))
    given = dict(os.environ, LD_PRELOAD=str(folder / "counting.so"), COPIED=str(folder / "copied"))
    words = [program, "stdio", folder / "rings", str(os.getuid())]
    with open(folder / "copied", "r+b") as file, mmap.mmap(file.fileno(), 4096) as counter:
        with ended(subprocess.Popen(words, env=given, stdin=subprocess.PIPE, stdout=subprocess.PIPE, bufsize=0)) as it:
            client = Keyringd(talk, it.stdout.fileno(), it.stdin.fileno())
            client.open_session()
            client.unlock(collection)
            item = f"{collection}/1"
            value = bytes(LENGTH)
            secret = (client.session, b"", value, "text/plain")
            for title, call in (
                    ("CreateItem", lambda: client.create_item(collection, "long", {"long": "yes"}, value)),
                    ("SetSecret", lambda: client.next(item, SECRET + "Item", "SetSecret", "(oayays)", [secret])),
                    ("GetSecret", lambda: client.get_secret(item)),
                    ("Ping", client.ping)):
                before = struct.unpack_from("<Q", counter)[0]
                client.talk_through([call()])
                copied = struct.unpack_from("<Q", counter)[0] - before
                print(f"{title}: {copied / LENGTH:.2f} bytes are copied for each byte of the secret")
