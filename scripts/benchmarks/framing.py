"""A stream of calls fed in pieces of 64 KiB, against libdbus, which is given each message whole; then in other pieces,
twice as many, long messages byte by byte, and the memory that is held."""
import resource, sys

from benchmarks.shared import best, c_program, escaped, lines_of, most_memory, rattle_program, run

CALLS = 200000

CALL = ("6c01000115000000010000007000000001016f00180000002f6f72672f667265656465736b746f702f736563726574730000000000000000"
        "020173001e0000006f72672e667265656465736b746f702e5365637265742e536572766963650000030173000b0000004f70656e53657373"
        "696f6e0000000000080167000273760005000000706c61696e000173000000000000000000")

# a call of Ping with a body of type `ay` of a mebibyte, up to the bytes of the array
LONG_CALL = ("6c010001c8ff0f00010000002800000001016f00010000002f00000000000000030173000400000050696e6700000000"
             "0801670002617900c4ff0f00")

FRAMING_PROGRAM = """//! Feeds a stream of messages in pieces, some times, and prints how many values they have in all.
#![tactic(auto)]

use dbus_framing::Framer;
use std::alloc::Global;
use std::env;
use std::env::Args;

const CALL: &[u8] = b"CALL_BYTES";

const LONG_CALL: &[u8] = b"LONG_BYTES";

// The first 16 bytes of a message that says it has 2 GiB.
const CLAIM: &[u8] = b"l\\x01\\0\\x01\\xff\\xff\\xff\\x7f\\x01\\0\\0\\0\\0\\0\\0\\0";

fn values_in(framer: &mut Framer) -> u64 {
    let mut count = 0u64;
    for _ in 0..u64::MAX {
        match framer.next() {
            Ok(Some(message)) => count = count.saturating_add(message.body.len() as u64),
            _ => return count,
        }
    }
    count
}

fn stream(alloc: Global, kind: &str, count: u32) -> Option<Vec<u8>> {
    let mut stream = Vec::new(alloc);
    for _ in 0..count {
        if kind == "long" {
            stream.extend_from_slice(LONG_CALL).ok()?;
            let array = vec![in alloc; 7u8; 1048516].ok()?;
            stream.extend_from_slice(array.as_slice()).ok()?;
        } else if kind == "claim" {
            stream.extend_from_slice(CLAIM).ok()?;
        } else {
            stream.extend_from_slice(CALL).ok()?;
        }
    }
    Some(stream)
}

fn run(alloc: Global, kind: &str, count: u32, size: u32, times: u32) -> Option<u64> {
    let stream = stream(alloc, kind, count)?;
    let mut framer = Framer::new(alloc, u32::MAX);
    let mut values = 0u64;
    for _ in 0..times {
        for piece in stream.as_slice().chunks((size as usize).max(1)) {
            framer.feed(piece).ok()?;
            values = values.saturating_add(values_in(&mut framer));
        }
    }
    Some(values)
}

fn number(words: &mut Args, or: u32) -> u32 {
    words.next().map_or(or, |word| word.as_str().parse::<u32>().unwrap_or(or))
}

fn main(rt: HostRuntime) {
    if let Ok(words) = env::args(&rt) {
        let mut words = words;
        let _name = words.next();
        if let Some(kind) = words.next() {
            let count = number(&mut words, 1);
            let size = number(&mut words, 65536);
            let times = number(&mut words, 1);
            if let Some(values) = run(rt.alloc(), kind.as_str(), count, size, times) {
                let _ = println!(rt; "{values}");
            }
        }
    }
}
"""

DBUS_C = r"""
#include <dbus/dbus.h>
#include <stdio.h>
#include <stdlib.h>
#include <string.h>
static char call[] = "CALL_BYTES";
int main(int argc, char **argv) {
    int size = sizeof call - 1, count = atoi(argv[2]);
    long values = 0, length = (long)size * count;
    char *stream = malloc(length);
    for (int i = 0; i < count; i++) memcpy(stream + (long)i * size, call, size);
    for (long at = 0; at < length;) {
        DBusError error;
        DBusMessageIter each;
        long left = length - at;
        int needed = dbus_message_demarshal_bytes_needed(stream + at, left > 65536 ? 65536 : (int)left);
        dbus_error_init(&error);
        DBusMessage *message = dbus_message_demarshal(stream + at, needed, &error);
        if (!message || !dbus_message_get_path(message) || !dbus_message_get_interface(message) || !dbus_message_get_member(message)) return 1;
        if (dbus_message_iter_init(message, &each)) do values++; while (dbus_message_iter_next(&each));
        dbus_message_unref(message);
        at += needed;
    }
    printf("%ld\n", values);
    return argc < 0;
}
"""


def measure(folder):
    text = FRAMING_PROGRAM.replace("CALL_BYTES", escaped(CALL)).replace("LONG_BYTES", escaped(LONG_CALL))
    ours = rattle_program(folder / "rattle", "framing_bench", text, lines_of(["kr_base", "dbus_types", "dbus_marshal", "dbus_framing"]))
    flags = run(["pkg-config", "--cflags", "--libs", "dbus-1"]).split()
    theirs = c_program(folder, "dbus_loader", DBUS_C.replace("CALL_BYTES", escaped(CALL)), *flags)
    mine, printed = best([ours, "calls", CALLS, 65536])
    peer, wanted = best([theirs, "calls", CALLS])
    if printed != wanted:
        sys.exit(f"scripts/bench: the framer gives {printed.strip()} values, and libdbus {wanted.strip()}")
    print(f"dbus_framing: {peer / mine:.2f} of the speed of libdbus")
    for size in 1 << 28, 4096, 64, 1:
        print(f"dbus_framing in pieces of {size}: {best([ours, 'calls', CALLS, size])[0] / mine:.2f} times the time of pieces of 65536")
    print(f"dbus_framing of twice as many calls: {best([ours, 'calls', 2 * CALLS, 65536])[0] / mine:.2f} times the time")
    long, few, many = [best([ours, "long", 1, *them])[0] for them in ((1, 16), (65536, 16), (1, 32))]
    print(f"dbus_framing of messages of a mebibyte byte by byte: {many / long:.2f} times the time for twice as many, and "
          f"{long / few:.0f} times that of pieces of 65536")
    print(f"dbus_framing behind 256 such messages holds {most_memory([ours, 'long', 1, 65536, 256]) / most_memory([ours, 'long', 1, 65536, 2]):.2f} of the memory behind 2")
    limited = {"preexec_fn": lambda: resource.setrlimit(resource.RLIMIT_AS, (1 << 28, 1 << 28))}
    if run([ours, "claim", 1000, 16], **limited).strip() != "0":
        sys.exit("scripts/bench: in 256 MiB of memory no message may begin that says it has 2 GiB")
    print("dbus_framing of a message that says it has 2 GiB: its first 16,000 bytes are kept in 256 MiB of address space")
