"""A stream of 100,000 calls of Ping is framed, read as calls, and the replies are written, against libdbus, which reads
the same calls and writes the same replies."""
import sys

from benchmarks.shared import PING, PINGS, best, c_program, escaped, lines_of, rattle_program, run

ROUNDS = 10

CALLS_PROGRAM = """//! Feeds a stream of calls of Ping, some times, answers each, and prints how many bytes the replies have.
#![tactic(auto)]

use call_wire::{call_of, message_of};
use dbus_framing::Framer;
use dbus_types::Message;
use secret_calls::{Body, Call, Out};
use std::alloc::Global;
use std::env;
use std::env::Args;

const CALL: &[u8] = b"CALL_BYTES";

fn reply(alloc: Global, message: &Message, count: u64) -> Option<usize> {
    if message.kind != 1 {
        return None;
    }
    let request = call_of(alloc, message).ok()?;
    let to = request.serial;
    let call = request.call.ok()?;
    let Call::Ping = call else {
        return None;
    };
    let body = Body::Empty;
    let serial = (count % 4294967295) as u32 + 1;
    let bytes = message_of(alloc, &Out::Return { to, body }, serial).ok()?;
    Some(bytes.len())
}

fn run(alloc: Global, calls: u32, times: u32) -> Option<u64> {
    let mut stream = Vec::new(alloc);
    for _ in 0..calls {
        stream.extend_from_slice(CALL).ok()?;
    }
    let mut framer = Framer::new(alloc, 1_048_576);
    let mut sent = 0u64;
    let mut count = 0u64;
    for _ in 0..times {
        for piece in stream.as_slice().chunks(65536) {
            framer.feed(piece).ok()?;
            for _ in 0..65536 {
                let Some(message) = framer.next().ok()? else {
                    break;
                };
                sent = sent.saturating_add(reply(alloc, &message, count)? as u64);
                count = count.saturating_add(1);
            }
        }
    }
    Some(sent)
}

fn number(words: &mut Args, or: u32) -> u32 {
    words.next().map_or(or, |word| word.as_str().parse::<u32>().unwrap_or(or))
}

fn main(rt: HostRuntime) {
    if let Ok(words) = env::args(&rt) {
        let mut words = words;
        let _name = words.next();
        let _kind = words.next();
        let calls = number(&mut words, 1);
        let times = number(&mut words, 1);
        if let Some(sent) = run(rt.alloc(), calls, times) {
            let _ = println!(rt; "{sent}");
        }
    }
}
"""

REPLIES_C = r"""
#include <dbus/dbus.h>
#include <stdio.h>
#include <stdlib.h>
#include <string.h>
static unsigned char call[] = "CALL_BYTES";
int main(int argc, char **argv) {
    int size = sizeof call - 1, count = atoi(argv[2]), times = atoi(argv[3]);
    long sent = 0, length = (long)size * count;
    unsigned serial = 0;
    char *stream = malloc(length);
    for (int i = 0; i < count; i++) memcpy(stream + (long)i * size, call, size);
    for (int i = 0; i < times; i++) for (long at = 0; at < length;) {
        DBusError error;
        char *bytes;
        int many;
        long left = length - at;
        int needed = dbus_message_demarshal_bytes_needed(stream + at, left > 65536 ? 65536 : (int)left);
        dbus_error_init(&error);
        DBusMessage *message = dbus_message_demarshal(stream + at, needed, &error);
        if (!message || !dbus_message_is_method_call(message, "org.freedesktop.DBus.Peer", "Ping")) return 1;
        DBusMessage *reply = dbus_message_new_method_return(message);
        if (!reply) return 1;
        dbus_message_set_serial(reply, ++serial);
        if (!dbus_message_marshal(reply, &bytes, &many)) return 1;
        sent += many;
        dbus_free(bytes);
        dbus_message_unref(reply);
        dbus_message_unref(message);
        at += needed;
    }
    printf("%ld\n", sent);
    return argc < 0;
}
"""


def measure(folder):
    ours = rattle_program(folder / "rattle", "calls_bench", CALLS_PROGRAM.replace("CALL_BYTES", escaped(PING)), lines_of(
        ["kr_base", "kr_items", "kr_names", "dbus_types", "dbus_marshal", "dbus_framing", "secret_calls", "call_wire"]))
    flags = run(["pkg-config", "--cflags", "--libs", "dbus-1"]).split()
    theirs = c_program(folder, "dbus_replies", REPLIES_C.replace("CALL_BYTES", escaped(PING)), *flags)
    mine, printed = best([ours, "calls", PINGS, ROUNDS])
    peer, wanted = best([theirs, "calls", PINGS, ROUNDS])
    if printed != wanted:
        sys.exit(f"scripts/bench: the replies have {printed.strip()} bytes, and libdbus' {wanted.strip()}")
    print(f"call_wire: {PINGS} calls of Ping are read and answered in {mine / peer:.2f} of the time of libdbus")
    print(f"call_wire of twice as many calls: {best([ours, 'calls', 2 * PINGS, ROUNDS])[0] / mine:.2f} times the time")
