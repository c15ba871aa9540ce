"""An array of bytes of 1 MiB and a dict of 20,000 pairs of texts, to bytes and back, against libdbus (its development
files and pkg-config are needed), then twice a size, and memory."""
from benchmarks.shared import best, c_program, lines_of, most_memory, rattle_program, run

MARSHAL_PROGRAM = """//! Reads or writes values of so many bytes or pairs as often as is told, and prints how long they are.
#![tactic(auto)]

use dbus_marshal::{marshal, unmarshal};
use dbus_types::{Endian, Signature};
use std::env;

// The spelling of an array of zeros, or of a dict with one pair over and over.
fn spelling(rt: &HostRuntime, is_dict: bool, size: u32) -> Option<Vec<u8>> {
    let mut bytes = Vec::new(rt.alloc());
    if is_dict {
        bytes.extend_from_slice(&(size % 1000000 * 24).to_le_bytes()).ok()?;
        bytes.extend_from_slice(&[0; 4]).ok()?;
        for _ in 0..size % 1000000 {
            bytes.extend_from_slice(b"\\x03\\0\\0\\0key\\0\\x0b\\0\\0\\0hello world\\0").ok()?;
        }
    } else {
        bytes.extend_from_slice(&size.to_le_bytes()).ok()?;
        bytes.resize(4 + size as usize % 67108865, 0).ok()?;
    }
    Some(bytes)
}

fn signature(rt: &HostRuntime, is_dict: bool) -> Option<Signature> {
    let text: &[u8] = if is_dict { b"a{ss}" } else { b"ay" };
    Signature::parse(rt.alloc(), text).ok()
}

fn read(rt: &HostRuntime, is_dict: bool, count: u32, size: u32) -> Option<usize> {
    let signature = signature(rt, is_dict)?;
    let bytes = spelling(rt, is_dict, size)?;
    let mut length = 0;
    for _ in 0..count {
        let values = unmarshal(rt.alloc(), &signature, Endian::Little, 0, bytes.as_slice()).ok()?;
        length = values.len();
    }
    Some(length)
}

fn write(rt: &HostRuntime, is_dict: bool, count: u32, size: u32) -> Option<usize> {
    let signature = signature(rt, is_dict)?;
    let bytes = spelling(rt, is_dict, size)?;
    let values = unmarshal(rt.alloc(), &signature, Endian::Little, 0, bytes.as_slice()).ok()?;
    drop(bytes);
    let mut length = 0;
    for _ in 0..count {
        let written = marshal(rt.alloc(), values.as_slice(), Endian::Little, 0).ok()?;
        length = written.len();
    }
    Some(length)
}

fn main(rt: HostRuntime) {
    if let Ok(words) = env::args(&rt) {
        let mut words = words;
        let _name = words.next();
        let is_read = words.next().is_some_and(|word| word.as_str() == "read");
        let is_dict = words.next().is_some_and(|word| word.as_str() == "dict");
        let count = words.next().map_or(0, |word| word.as_str().parse::<u32>().unwrap_or(0));
        let size = words.next().map_or(16, |word| word.as_str().parse::<u32>().unwrap_or(16));
        let length = if is_read {
            read(&rt, is_dict, count, size)
        } else {
            write(&rt, is_dict, count, size)
        };
        if let Some(length) = length {
            let _ = println!(rt; "{length}");
        }
    }
}
"""

MARSHAL_C = r"""
#include <dbus/dbus.h>
#include <stdio.h>
#include <stdlib.h>
#include <string.h>
static DBusMessage *made(int dict, int size) {
    DBusMessage *m = dbus_message_new_method_call(NULL, "/a", NULL, "M");
    DBusMessageIter it, in, pair;
    dbus_message_set_serial(m, 1);
    dbus_message_iter_init_append(m, &it);
    if (dict) {
        const char *key = "key", *value = "hello world";
        dbus_message_iter_open_container(&it, 'a', "{ss}", &in);
        for (int i = 0; i < size; i++) {
            dbus_message_iter_open_container(&in, 'e', NULL, &pair);
            dbus_message_iter_append_basic(&pair, 's', &key);
            dbus_message_iter_append_basic(&pair, 's', &value);
            dbus_message_iter_close_container(&in, &pair);
        }
    } else {
        char *bytes = calloc(size, 1);
        dbus_message_iter_open_container(&it, 'a', "y", &in);
        dbus_message_iter_append_fixed_array(&in, 'y', &bytes, size);
        free(bytes);
    }
    dbus_message_iter_close_container(&it, &in);
    return m;
}
static long walk(DBusMessageIter *it) {
    long n = 0;
    for (int t; (t = dbus_message_iter_get_arg_type(it)); dbus_message_iter_next(it)) {
        DBusMessageIter in;
        const char *text, *bytes;
        int count;
        if (t == 'a' && dbus_message_iter_get_element_type(it) == 'y') {
            dbus_message_iter_recurse(it, &in);
            dbus_message_iter_get_fixed_array(&in, &bytes, &count);
            char *copy = malloc(count + 1);
            memcpy(copy, bytes, count);
            n += count + copy[count / 2];
            free(copy);
        } else if (t == 'a' || t == 'e') {
            dbus_message_iter_recurse(it, &in);
            n += walk(&in);
        } else {
            dbus_message_iter_get_basic(it, &text);
            char *copy = strdup(text);
            n += strlen(copy);
            free(copy);
        }
    }
    return n;
}
int main(int argc, char **argv) {
    int reads = argv[1][0] == 'r', dict = argv[2][0] == 'd', count = atoi(argv[3]), size = atoi(argv[4]);
    long sum = 0;
    char *wire;
    int length;
    DBusMessage *m = made(dict, size);
    if (!dbus_message_marshal(m, &wire, &length)) return 2;
    dbus_message_unref(m);
    for (int i = count; i > 0; i--) {
        if (reads) {
            DBusMessage *back = dbus_message_demarshal(wire, length, NULL);
            DBusMessageIter it;
            if (!back || !dbus_message_iter_init(back, &it)) return 3;
            sum += walk(&it);
            dbus_message_unref(back);
        } else {
            char *written;
            m = made(dict, size);
            if (!dbus_message_marshal(m, &written, &length)) return 2;
            sum += written[length - 1];
            dbus_free(written);
            dbus_message_unref(m);
        }
    }
    printf("%ld\n", sum);
    return argc < 0;
}
"""


def measure(folder):
    ours = rattle_program(folder / "rattle", "marshal_bench", MARSHAL_PROGRAM, lines_of(["kr_base", "dbus_types", "dbus_marshal"]))
    flags = run(["pkg-config", "--cflags", "--libs", "dbus-1"]).split()
    theirs = c_program(folder, "libdbus", MARSHAL_C, *flags)

    def cost(program, direction, kind, count, size):
        """Seconds for so many readings or writings, without what stands before them."""
        return best([program, direction, kind, count, size])[0] - best([program, direction, kind, 0, size])[0]

    # an array of bytes is doubled from 8 MiB on, where neither size fits most processors' caches
    for kind, count, size, wide in ("bytes", 2000, 1048576, 8388608), ("dict", 100, 20000, 20000):
        for direction in "read", "write":
            mine, peer = (cost(it, direction, kind, count, size) for it in (ours, theirs))
            once, twice = (cost(ours, direction, kind, count * size // wide, it) for it in (wide, 2 * wide))
            print(f"dbus_marshal {direction} {kind}: {peer / mine:.2f} of the speed of libdbus, and twice the size takes {twice / once:.2f} of the time")
    for kind, size in ("bytes", 60000000), ("dict", 600000):
        for direction in "read", "write":
            mine, peer = (most_memory([it, direction, kind, 1, size]) for it in (ours, theirs))
            length = size * (24 if kind == "dict" else 1)
            print(f"dbus_marshal {direction} {kind}: {mine / length:.2f} bytes of memory for each byte that is spelled, that byte included; libdbus {peer / length:.2f}")
