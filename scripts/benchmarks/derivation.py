"""A chain of SHA-256 against the same chain in C, without hardware instructions in either."""
import sys

from benchmarks.shared import best, c_program, lines_of, rattle_program

LINKS = 600000

DERIVATION_PROGRAM = """//! Derives a key with as many iterations as are told, and prints its first byte.
#![tactic(auto)]

use key_derivation::derive;
use kr_base::Bytes;
use std::env;

fn main(rt: HostRuntime) {
    if let Ok(words) = env::args(&rt) {
        let mut words = words;
        let _name = words.next();
        let _word = words.next();
        let count = words.next().map_or(0, |word| word.as_str().parse::<u32>().unwrap_or(0));
        if let Ok(password) = Bytes::from_slice(rt.alloc(), b"password") {
            let derived = derive(password, *b"saltsalt", count);
            let [first, ..] = derived.key();
            let _ = println!(rt; "{first}");
        }
    }
}
"""

# SHA-256 of a block, and its constants (FIPS 180-4)
SHA_C = r"""
#include <stdint.h>
#include <stdio.h>
#include <stdlib.h>
#include <string.h>
static uint32_t C[64];
static uint32_t turn(uint32_t w, int n) { return w >> n | w << (32 - n); }
static uint32_t part(uint64_t p, int cube) {
    uint64_t low = 0, high = (uint64_t)20 << 32;
    while (high - low > 1) {
        uint64_t m = low + (high - low) / 2;
        __uint128_t s = (__uint128_t)m * m;
        int over = cube ? (s >> 64) * m + ((s & UINT64_MAX) * (__uint128_t)m >> 64) >= p << 32 : s >= (__uint128_t)p << 64;
        if (over) high = m; else low = m;
    }
    return (uint32_t)low;
}
static void compress(uint32_t *h, const uint8_t *p) {
    uint32_t w[64];
    for (int i = 0; i < 16; i++) w[i] = (uint32_t)p[4 * i] << 24 | p[4 * i + 1] << 16 | p[4 * i + 2] << 8 | p[4 * i + 3];
    for (int i = 16; i < 64; i++) {
        uint32_t x = w[i - 15], y = w[i - 2];
        w[i] = w[i - 16] + (turn(x, 7) ^ turn(x, 18) ^ x >> 3) + w[i - 7] + (turn(y, 17) ^ turn(y, 19) ^ y >> 10);
    }
    uint32_t a = h[0], b = h[1], c = h[2], d = h[3], e = h[4], f = h[5], g = h[6], k = h[7];
    for (int i = 0; i < 64; i++) {
        uint32_t t = k + (turn(e, 6) ^ turn(e, 11) ^ turn(e, 25)) + ((e & f) ^ (~e & g)) + C[i] + w[i];
        uint32_t u = (turn(a, 2) ^ turn(a, 13) ^ turn(a, 22)) + ((a & b) ^ (a & c) ^ (b & c));
        k = g; g = f; f = e; e = d + t; d = c; c = b; b = a; a = t + u;
    }
    h[0] += a; h[1] += b; h[2] += c; h[3] += d; h[4] += e; h[5] += f; h[6] += g; h[7] += k;
}
static void constants(uint32_t *start) {
    for (int n = 2, i = 0; i < 64; n++) {
        int prime = 1;
        for (int q = 2; q * q <= n; q++) prime &= n % q != 0;
        if (prime) { C[i] = part(n, 1); if (i < 8) start[i] = part(n, 0); i++; }
    }
}
"""

CHAIN_C = SHA_C + r"""
int main(int argc, char **argv) {
    uint32_t start[8], h[8];
    uint8_t block[64];
    constants(start);
    int length = 16;
    memset(block, 0, 64); memcpy(block, "passwordsaltsalt", 16);
    for (int i = atoi(argv[2]); i > 0; i--) {
        memset(block + length, 0, 64 - length);
        block[length] = 128; block[62] = length * 8 >> 8; block[63] = length * 8 & 255;
        memcpy(h, start, 32); compress(h, block);
        for (int j = 0; j < 32; j++) block[j] = h[j / 4] >> (24 - 8 * (j % 4));
        length = 32;
    }
    printf("%d\n", block[0]);
    return argc < 0;
}
"""


def measure(folder):
    ours = rattle_program(folder / "rattle", "derivation_bench", DERIVATION_PROGRAM, lines_of(["kr_base", "key_derivation"]))
    theirs = c_program(folder, "sha_chain", CHAIN_C)
    mine, printed = best([ours, "chain", LINKS])
    peer, wanted = best([theirs, "chain", LINKS])
    if printed != wanted:
        sys.exit(f"scripts/bench: the derivation gives {printed.strip()}, and the C program {wanted.strip()}")
    print(f"key_derivation: {peer / mine:.2f} of the speed of the same chain in C (gcc -O2)")
