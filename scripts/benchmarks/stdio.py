"""The built program `keyringd stdio` answers a client that sends a handshake and 100,000 calls of Ping, against a C
program over libdbus that reads the same stream, 64 KiB at a time, and writes the same bytes, each reply by a write of its
own as keyringd does; then ten times as many calls, and memory."""
import os, re, subprocess, sys, tempfile

from benchmarks.shared import PING, PINGS, c_program, keyringd, peak, run

STDIO_C = r"""
#include <dbus/dbus.h>
#include <stdio.h>
#include <stdlib.h>
#include <string.h>
#include <unistd.h>
static char given[1 << 17];
static void send(const char *bytes, int many) {
    while (many > 0) {
        ssize_t sent = write(1, bytes, many);
        if (sent <= 0) exit(1);
        bytes += sent;
        many -= sent;
    }
}
int main(void) {
    const char begin[] = "BEGIN\r\n", ok[] = "OK 00000000000000000000000000000000\r\n";
    int open = 0;
    unsigned serial = 0;
    size_t held = 0;
    ssize_t got;
    while ((got = read(0, given + held, 65536)) > 0) {
        size_t at = 0;
        held += got;
        if (!open) {
            char *found = memmem(given, held, begin, sizeof begin - 1);
            if (!found) continue;
            open = 1;
            at = found - given + sizeof begin - 1;
            send(ok, sizeof ok - 1);
        }
        while (held - at >= 16) {
            DBusError error;
            char *bytes;
            int many, needed = dbus_message_demarshal_bytes_needed(given + at, held - at);
            if (needed <= 0 || (size_t)needed > held - at) break;
            dbus_error_init(&error);
            DBusMessage *message = dbus_message_demarshal(given + at, needed, &error);
            if (!message || !dbus_message_is_method_call(message, "org.freedesktop.DBus.Peer", "Ping")) return 1;
            DBusMessage *reply = dbus_message_new_method_return(message);
            if (!reply) return 1;
            dbus_message_set_no_reply(reply, 1);
            dbus_message_set_serial(reply, ++serial);
            if (!dbus_message_marshal(reply, &bytes, &many)) return 1;
            send(bytes, many);
            dbus_free(bytes);
            dbus_message_unref(reply);
            dbus_message_unref(message);
            at += needed;
        }
        memmove(given, given + at, held -= at);
    }
    return held != 0;
}
"""


def measure(folder):
    flags = run(["pkg-config", "--cflags", "--libs", "dbus-1"]).split()
    theirs = c_program(folder, "dbus_stdio", STDIO_C, "-D_GNU_SOURCE", *flags)
    (folder / "rings").mkdir()
    ours = [keyringd(folder / "keyringd"), "stdio", folder / "rings", "1000"]
    streams = {count: stream_of(folder / f"{count}", count) for count in (PINGS, 10 * PINGS)}
    mine, written = best_piped(ours, streams[PINGS])
    peer, wanted = best_piped([theirs], streams[PINGS])
    written = re.sub(rb"\AOK [0-9a-f]{32}", b"OK " + b"0" * 32, written)  # the number of the server is random
    if written != wanted:
        sys.exit(f"scripts/bench: keyringd wrote {len(written)} bytes, and not the {len(wanted)} bytes that libdbus wrote")
    print(f"keyringd stdio: {PINGS} calls of Ping are answered in {mine / peer:.2f} of the time of libdbus, byte for byte alike")
    more = best_piped(ours, streams[10 * PINGS])[0]
    print(f"keyringd stdio of ten times as many calls: {more / mine:.2f} times the time")
    most = {count: peak(ours, streams[count]) for count in streams}
    print(f"keyringd stdio of ten times as many calls: {most[10 * PINGS] / most[PINGS]:.2f} times the memory at once, which is {most[PINGS] / 2 ** 20:.0f} MiB")


def stream_of(path, count):
    """A file with what a client sends: the handshake, and so many calls of Ping."""
    path.write_bytes(b"\0AUTH EXTERNAL 31303030\r\nBEGIN\r\n" + bytes.fromhex(PING) * count)
    return path


def best_piped(words, path, rounds=5):
    """The least seconds that the processor spent on some runs over the bytes of a file, and what they wrote."""
    least, written = None, None
    for _ in range(rounds):
        with open(path, "rb") as given, tempfile.TemporaryFile() as told:
            before = os.times()
            ran = subprocess.run([str(it) for it in words], stdin=given, stdout=told)
            after = os.times()
            if ran.returncode:
                sys.exit(f"scripts/bench: {words[0]} ended with status {ran.returncode}")
            told.seek(0)
            written = told.read()
        took = after.children_user + after.children_system - before.children_user - before.children_system
        least = took if least is None else min(least, took)
    return least, written
