"""A folder of 1,000 keyring files of ten items is loaded, against a program in C that makes the same system calls and
walks the same clear parts, and against folders of 10 and 100 such files."""
import shutil, sys

from benchmarks.shared import best, c_program, keyring_file, lines_of, rattle_program

FOLDER_PROGRAM = """//! Loads a folder as often as is told, and prints how many items its collections have.
#![tactic(auto)]

use folder_store::load;
use kr_outside::Host;
use real_edges::RealHost;
use std::alloc::Global;
use std::env;

fn loaded<H: Host>(alloc: Global, host: &mut H, path: &str) -> Option<usize> {
    let mut folder = host.folder(path).ok()?;
    let loaded = load(alloc, &mut folder).ok()?;
    let mut items = 0usize;
    for ring in &loaded.rings {
        items = items.saturating_add(ring.clear().items.len());
    }
    Some(items)
}

fn main(rt: HostRuntime) {
    if let Ok(words) = env::args(&rt) {
        let mut words = words;
        let _name = words.next();
        if let (Some(path), Some(count)) = (words.next(), words.next()) {
            let count = count.as_str().parse::<u32>().unwrap_or(0);
            let mut host = RealHost::new(rt);
            let mut items = None;
            for _ in 0..count {
                items = loaded(rt.alloc(), &mut host, path.as_str());
            }
            if let Some(items) = items {
                let _ = println!(rt; "{items}");
            }
        }
    }
}
"""

FOLDER_C = r"""
#include <dirent.h>
#include <fcntl.h>
#include <stdio.h>
#include <stdlib.h>
#include <string.h>
#include <sys/stat.h>
#include <unistd.h>
static unsigned char *at, *end;
static void bytes(size_t count) { if ((size_t)(end - at) < count) exit(1); at += count; }
static unsigned number(void) { bytes(4); return (unsigned)at[-4] << 24 | at[-3] << 16 | at[-2] << 8 | at[-1]; }
static void string(void) { unsigned count = number(); if (count != 0xffffffff) bytes(count); }
static unsigned walk(void) {
    if (end - at < 20 || memcmp(at, "GnomeKeyring\n\r\0\n\0\0\0\0", 20)) return 0;
    bytes(20);
    string();
    bytes(52);
    unsigned items = number();
    for (unsigned i = 0; i < items; i++) {
        bytes(8);
        for (unsigned left = number(); left; left--) { string(); if (number()) bytes(4); else string(); }
    }
    bytes(number());
    if (at != end) exit(1);
    return items;
}
static void settle(const char *path) {
    int folder = open(path, O_RDONLY | O_CLOEXEC);
    if (folder < 0 || fsync(folder)) exit(1);
    close(folder);
}
static int compare(const void *one, const void *two) { return strcmp(*(char **)one, *(char **)two); }
static unsigned load(const char *path) {
    static char *names[4096], place[4096];
    static unsigned char *files[4096];
    int count = 0;
    unsigned items = 0;
    struct dirent *entry;
    settle(path);
    DIR *folder = opendir(path);
    while ((entry = readdir(folder))) if (strstr(entry->d_name, ".keyring")) names[count++] = strdup(entry->d_name);
    closedir(folder);
    qsort(names, count, sizeof *names, compare);
    for (int i = 0; i < count; i++) {
        struct stat found;
        settle(path);
        snprintf(place, sizeof place, "%s/%s", path, names[i]);
        if (stat(place, &found)) exit(1);
        int file = open(place, O_RDONLY | O_CLOEXEC);
        at = files[i] = malloc(found.st_size + 1);
        end = at + found.st_size;
        if (file < 0 || read(file, at, found.st_size + 1) != found.st_size) exit(1);
        close(file);
        items += walk();
    }
    for (int i = 0; i < count; i++) { free(names[i]); free(files[i]); }
    return items;
}
int main(int argc, char **argv) {
    unsigned items = 0;
    for (int i = atoi(argv[2]); i; i--) items = load(argv[1]);
    printf("%u\n", items);
    return argc < 0;
}
"""


def measure(folder):
    names = ["kr_base", "kr_items", "kr_names", "kr_outside", "kr_memory", "kr_memory_disk", "real_edges", "keyring_text", "keyring_file",
             "alias_text", "replace_slot", "folder_store"]
    ours = rattle_program(folder / "rattle", "folder_bench", FOLDER_PROGRAM, lines_of(names))
    theirs = c_program(folder, "folder", FOLDER_C)
    keyring_file(folder / "one.keyring", 10)
    for count in 10, 100, 1000:
        (folder / str(count)).mkdir()
        for number in range(count):
            shutil.copy(folder / "one.keyring", folder / str(count) / f"{number}.keyring")

    def spent(program, count):
        """Seconds for each file, without what the program takes to start."""
        words, times = [program, folder / str(count)], 20000 // count
        took, printed = best([*words, times])
        if int(printed) != 10 * count:
            sys.exit(f"scripts/bench: {program} finds {printed.strip()} items in {count} files of ten")
        return (took - best([*words, 0])[0]) / times / count

    mine, peer = spent(ours, 1000), spent(theirs, 1000)
    print(f"folder_store: 1,000 keyring files of {(folder / 'one.keyring').stat().st_size} bytes are loaded in {mine / peer:.2f} of the time of the C program")
    print(f"  ({mine * 1e6:.1f} us a file); a file among 10 takes {spent(ours, 10) / mine:.2f} and among 100 {spent(ours, 100) / mine:.2f} of one among 1,000")
