"""AES-128 in CBC mode over 1 MiB at a time, both directions, against a portable C program with tables (gcc -O2)
and against OpenSSL's command."""
import re, sys

from benchmarks.shared import best, c_program, lines_of, rattle_program, run

MEBIBYTES = 192

AES_PROGRAM = """//! Runs AES-128 in CBC mode over a mebibyte as often as is told, and prints the last byte.
#![tactic(auto)]

use aes_cbc::Key;
use std::env;

fn once(key: &Key, decrypts: bool, text: &mut [u8]) {
    if text.len() % 16 == 0 {
        if decrypts {
            key.decrypt_in_place([9; 16], text);
        } else {
            key.encrypt_in_place([9; 16], text);
        }
    }
}

fn run(rt: &HostRuntime, decrypts: bool, count: u32, size: usize) -> Option<u8> {
    let key = Key::new([7; 16]);
    let mut text = vec![in rt.alloc(); 0u8; size].ok()?;
    for _ in 0..count {
        once(&key, decrypts, text.as_mut_slice());
    }
    text.pop()
}

fn main(rt: HostRuntime) {
    if let Ok(words) = env::args(&rt) {
        let mut words = words;
        let _name = words.next();
        let decrypts = words.next().is_some_and(|word| word.as_str() == "decrypt");
        let count = words.next().map_or(0, |word| word.as_str().parse::<u32>().unwrap_or(0));
        let size = words.next().map_or(1048576, |word| word.as_str().parse::<usize>().unwrap_or(16));
        if let Some(last) = run(&rt, decrypts, count, size) {
            let _ = println!(rt; "{last}");
        }
    }
}
"""

AES_C = r"""
#include <stdint.h>
#include <stdio.h>
#include <stdlib.h>
#include <string.h>
static uint8_t S[256], I[256];
static uint32_t T[4][256], D[4][256], K[44], L[44];
static uint8_t twice(uint8_t a) { return (uint8_t)(a << 1 ^ (a & 128 ? 27 : 0)); }
static uint8_t times(uint8_t a, uint8_t b) { uint8_t r = 0; for (; b; b >>= 1, a = twice(a)) if (b & 1) r ^= a; return r; }
static uint32_t turn(uint32_t w, int n) { return w << n | w >> (32 - n); }
static void tables(void) {
    for (int a = 0; a < 256; a++) {
        uint8_t v = 0;
        for (int b = 1; b < 256 && a; b++) if (times(a, b) == 1) v = b;
        uint8_t s = 99;
        for (int k = 0; k < 5; k++) s ^= (uint8_t)(v << k | v >> (8 - k));
        S[a] = s; I[s] = a;
    }
    for (int a = 0; a < 256; a++) {
        uint8_t s = S[a], i = I[a];
        T[0][a] = (uint32_t)twice(s) << 24 | (uint32_t)s << 16 | (uint32_t)s << 8 | (uint8_t)(twice(s) ^ s);
        D[0][a] = (uint32_t)times(i, 14) << 24 | (uint32_t)times(i, 9) << 16 | (uint32_t)times(i, 13) << 8 | times(i, 11);
        for (int k = 1; k < 4; k++) { T[k][a] = turn(T[k - 1][a], 24); D[k][a] = turn(D[k - 1][a], 24); }
    }
}
static uint32_t load(const uint8_t *p) { return (uint32_t)p[0] << 24 | p[1] << 16 | p[2] << 8 | p[3]; }
static void store(uint8_t *p, uint32_t w) { p[0] = w >> 24; p[1] = w >> 16; p[2] = w >> 8; p[3] = w; }
static uint32_t sub(uint32_t w) { return (uint32_t)S[w >> 24] << 24 | S[w >> 16 & 255] << 16 | S[w >> 8 & 255] << 8 | S[w & 255]; }
static void schedule(const uint8_t *key) {
    uint8_t c = 1;
    for (int i = 0; i < 4; i++) K[i] = load(key + 4 * i);
    for (int i = 4; i < 44; i++) {
        uint32_t t = K[i - 1];
        if (i % 4 == 0) { t = sub(turn(t, 8)) ^ (uint32_t)c << 24; c = twice(c); }
        K[i] = K[i - 4] ^ t;
    }
    for (int r = 0; r <= 10; r++) for (int i = 0; i < 4; i++) {
        uint32_t w = K[4 * (10 - r) + i];
        L[4 * r + i] = r % 10 ? D[0][S[w >> 24]] ^ D[1][S[w >> 16 & 255]] ^ D[2][S[w >> 8 & 255]] ^ D[3][S[w & 255]] : w;
    }
}
#define ROUND(X, a, b, c, d, k) (X[0][a >> 24] ^ X[1][b >> 16 & 255] ^ X[2][c >> 8 & 255] ^ X[3][d & 255] ^ k)
#define LAST(X, a, b, c, d, k) (((uint32_t)X[a >> 24] << 24 | (uint32_t)X[b >> 16 & 255] << 16 | (uint32_t)X[c >> 8 & 255] << 8 | X[d & 255]) ^ k)
static void encrypt(uint8_t *p, size_t n, const uint8_t *vector) {
    uint32_t v0 = load(vector), v1 = load(vector + 4), v2 = load(vector + 8), v3 = load(vector + 12);
    for (; n; n -= 16, p += 16) {
        uint32_t a = load(p) ^ v0 ^ K[0], b = load(p + 4) ^ v1 ^ K[1], c = load(p + 8) ^ v2 ^ K[2], d = load(p + 12) ^ v3 ^ K[3];
        for (int r = 4; r < 40; r += 4) {
            uint32_t e = ROUND(T, a, b, c, d, K[r]), f = ROUND(T, b, c, d, a, K[r + 1]), g = ROUND(T, c, d, a, b, K[r + 2]), h = ROUND(T, d, a, b, c, K[r + 3]);
            a = e; b = f; c = g; d = h;
        }
        v0 = LAST(S, a, b, c, d, K[40]); v1 = LAST(S, b, c, d, a, K[41]); v2 = LAST(S, c, d, a, b, K[42]); v3 = LAST(S, d, a, b, c, K[43]);
        store(p, v0); store(p + 4, v1); store(p + 8, v2); store(p + 12, v3);
    }
}
static void decrypt(uint8_t *p, size_t n, const uint8_t *vector) {
    uint32_t v0 = load(vector), v1 = load(vector + 4), v2 = load(vector + 8), v3 = load(vector + 12);
    for (; n; n -= 16, p += 16) {
        uint32_t x0 = load(p), x1 = load(p + 4), x2 = load(p + 8), x3 = load(p + 12);
        uint32_t a = x0 ^ L[0], b = x1 ^ L[1], c = x2 ^ L[2], d = x3 ^ L[3];
        for (int r = 4; r < 40; r += 4) {
            uint32_t e = ROUND(D, a, d, c, b, L[r]), f = ROUND(D, b, a, d, c, L[r + 1]), g = ROUND(D, c, b, a, d, L[r + 2]), h = ROUND(D, d, c, b, a, L[r + 3]);
            a = e; b = f; c = g; d = h;
        }
        store(p, LAST(I, a, d, c, b, L[40]) ^ v0); store(p + 4, LAST(I, b, a, d, c, L[41]) ^ v1);
        store(p + 8, LAST(I, c, b, a, d, L[42]) ^ v2); store(p + 12, LAST(I, d, c, b, a, L[43]) ^ v3);
        v0 = x0; v1 = x1; v2 = x2; v3 = x3;
    }
}
int main(int argc, char **argv) {
    size_t n = 1 << 20;
    uint8_t key[16], vector[16], *text = calloc(n, 1);
    memset(key, 7, 16); memset(vector, 9, 16);
    tables(); schedule(key);
    for (int i = atoi(argv[2]); i > 0; i--) if (argv[1][0] == 'd') decrypt(text, n, vector); else encrypt(text, n, vector);
    printf("%d\n", text[n - 1]);
    return 0;
}
"""


def openssl(decrypts):
    """OpenSSL's bytes a second, by its own measure."""
    words = ["openssl", "speed", "-evp", "aes-128-cbc", "-bytes", "1048576", "-seconds", "2"]
    found = re.findall(r"^AES-128-CBC\s+([\d.]+)k", run(words + ["-decrypt"] * decrypts), re.M | re.I)
    return float(found[-1]) * 1000


def measure(folder):
    ours = rattle_program(folder / "rattle", "aes_bench", AES_PROGRAM, lines_of(["aes_cbc"]))
    theirs = c_program(folder, "aes_tables", AES_C)
    for word in "encrypt", "decrypt":
        mine, printed = best([ours, word, MEBIBYTES])
        peer, wanted = best([theirs, word, MEBIBYTES])
        if printed != wanted:
            sys.exit(f"scripts/bench: {word} gives {printed.strip()}, and the C program {wanted.strip()}")
        speed = MEBIBYTES * 1048576 / mine
        print(f"aes_cbc {word}: {peer / mine:.2f} of the speed of C with tables (gcc -O2), {speed / openssl(word == 'decrypt'):.3f} of OpenSSL's")
