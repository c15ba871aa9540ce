"""The most memory at once that messages of about a megabyte take, for each of their bytes: arrays of empty arrays of a
long struct, arrays 32 deep, variants, a dict, bytes, signatures of several kinds, and structs 32 deep; read by unmarshal
alone, and as the body of a call to `keyringd stdio`, the process included."""
from benchmarks.shared import c_program, keyringd, lines_of, rattle_program, run

MEMORY_PROGRAM = """//! Reads the body of one array, whose elements are some bytes over and over, and prints how many values it is.
#![tactic(auto)]

use dbus_marshal::unmarshal;
use dbus_types::{Endian, Signature};
use std::env;

// The length of the elements, some padding, and the elements, the last of which lacks some bytes.
fn spelling(rt: &HostRuntime, lead: u32, chunk: &[u8], count: u32, less: u32) -> Option<Vec<u8>> {
    let size = u32::try_from(chunk.len()).ok()?.checked_mul(count)?.checked_sub(less)?;
    let mut bytes = Vec::with_capacity(rt.alloc(), (size as usize).saturating_add(64)).ok()?;
    bytes.extend_from_slice(&size.to_le_bytes()).ok()?;
    bytes.extend_from_slice(&[0; 8][..lead as usize % 8]).ok()?;
    for _ in 0..count {
        bytes.extend_from_slice(chunk).ok()?;
    }
    let end = bytes.len().saturating_sub(less as usize);
    bytes.truncate(end);
    Some(bytes)
}

fn read(rt: &HostRuntime, signature: &str, lead: u32, chunk: &str, count: u32, less: u32) -> Option<usize> {
    let signature = Signature::parse(rt.alloc(), signature.as_bytes()).ok()?;
    let chunk = hex::decode(rt.alloc(), chunk).ok()?;
    let bytes = spelling(rt, lead, chunk.as_slice(), count, less)?;
    let values = unmarshal(rt.alloc(), &signature, Endian::Little, 0, bytes.as_slice()).ok()?;
    Some(values.len())
}

fn main(rt: HostRuntime) {
    if let Ok(words) = env::args(&rt) {
        let mut words = words;
        let _name = words.next();
        if let Some(signature) = words.next()
            && let Some(lead) = words.next()
            && let Some(chunk) = words.next()
            && let Some(count) = words.next()
            && let Some(less) = words.next()
            && let Ok(lead) = lead.as_str().parse::<u32>()
            && let Ok(count) = count.as_str().parse::<u32>()
            && let Ok(less) = less.as_str().parse::<u32>()
            && let Some(count) = read(&rt, signature.as_str(), lead, chunk.as_str(), count, less)
        {
            let _ = println!(rt; "{count}");
        }
    }
}
"""

# a small process that starts another one and prints the most kilobytes that it held at once
STARTER_C = r"""
#include <stdio.h>
#include <sys/resource.h>
#include <sys/wait.h>
#include <fcntl.h>
#include <unistd.h>
int main(int argc, char **argv) {
    pid_t child = fork();
    if (child == 0) {
        dup2(open("/dev/null", O_WRONLY), 1);
        execv(argv[1], argv + 1);
        _exit(127);
    }
    int status = 1;
    struct rusage used;
    wait4(child, &status, 0, &used);
    printf("%ld\n", used.ru_maxrss);
    return argc < 2 || status != 0;
}
"""

# the signature of an array, the padding to its first element, an element, and what the last one lacks
SHAPES = {
    "empty arrays of a struct of 250 fields": ("aa(" + "y" * 250 + ")", 0, bytes(8), 4),
    "32 arrays of arrays": ("a" * 32 + "y", 0, bytes(4), 0),
    "variants": ("av", 0, b"\x01y\0\x05", 0),
    "a dict of variants": ("a{sv}", 4, b"\x01\0\0\0k\0\x01y\0\x05" + bytes(6), 6),
    "bytes": ("ay", 0, bytes(1), 0),
    "numbers of 16 bits": ("aq", 0, bytes(2), 0),
    "empty signatures": ("ag", 0, bytes(2), 0),
    "signatures of one letter": ("ag", 0, b"\x01y\0", 0),
    "signatures of 32 arrays": ("ag", 0, b"\xe7" + (b"a" * 32 + b"y") * 7 + b"\0", 0),
    "signatures of 32 structs of a byte": ("ag", 0, b"\x41" + b"(" * 32 + b"y" + b")" * 32 + b"\0", 0),
    "variants of an empty array of 32 structs of a byte": ("a(v)", 4, b"\x42a" + b"(" * 32 + b"y" + b")" * 32 + bytes(5), 0),
    "empty arrays of bytes": ("aay", 0, bytes(4), 0),
    "structs of a byte": ("a(y)", 4, bytes(8), 7),
    "32 structs of a byte": ("a" + "(" * 32 + "y" + ")" * 32, 4, bytes(8), 7),
    "32 structs of a struct and a byte": ("a" + "(" * 32 + "y" + "y)" * 32, 4, bytes(40), 7),
    "32 structs of a struct and two bytes": ("a" + "(" * 32 + "y" + "yy)" * 32, 4, bytes(72), 7),
}


def padded(data, size):
    return data + bytes(-len(data) % size)


def ping_with(signature, body):
    """A call of Ping with a body that no method has."""
    fields = b""
    for code, kind, value in (1, b"o", b"/"), (3, b"s", b"Ping"), (8, b"g", signature):
        length = bytes([len(value)]) if kind == b"g" else len(value).to_bytes(4, "little")
        fields = padded(fields, 8) + bytes([code, 1]) + kind + b"\0" + length + value + b"\0"
    head = b"l\1\0\1" + len(body).to_bytes(4, "little") + (1).to_bytes(4, "little") + len(fields).to_bytes(4, "little")
    return padded(head + fields, 8) + body


def measure(folder):
    ours = rattle_program(folder / "rattle", "memory_bench", MEMORY_PROGRAM, lines_of(["kr_base", "dbus_types", "dbus_marshal"]), " hex")
    (folder / "rings").mkdir()
    program = [keyringd(folder / "keyringd"), "stdio", folder / "rings", "1000"]
    starter = c_program(folder, "starter", STARTER_C)
    for name, (signature, lead, chunk, less) in SHAPES.items():
        count = 1040000 // len(chunk)
        elements = (chunk * count)[:len(chunk) * count - less]
        body = len(elements).to_bytes(4, "little") + bytes(lead) + elements
        read = int(run([starter, ours, signature, lead, chunk.hex(), count, less])) * 1024
        stream = folder / "message"
        stream.write_bytes(b"\0AUTH EXTERNAL 31303030\r\nBEGIN\r\n" + ping_with(signature.encode(), body))
        served = int(run([starter, *program], stdin=open(stream, "rb"))) * 1024
        print(f"memory for each byte of {name}: {read / len(body):.1f} bytes by unmarshal, {served / len(body):.1f} by keyringd stdio")
