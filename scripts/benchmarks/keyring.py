"""A keyring file of 10,000 items and about 2 MB is opened and sealed, against AES and MD5 over its area and the MD5 of
its attributes by the same crates, against files of other sizes, and against a program in Python over OpenSSL if
Python has its package cryptography; and the most memory at once."""
import subprocess, sys

from benchmarks.shared import best, keyring_file, lines_of, peak, rattle_program, run

OPENINGS = 100

KEYRING_PROGRAM = """//! Opens or seals a keyring file as often as is told, or runs AES or MD5 over its area, and prints a number.
#![tactic(auto)]

use aes_cbc::Key;
use key_derivation::{Derived, derive};
use keyring_seal::{open, seal};
use kr_base::Bytes;
use md5::{Digest, Md5};
use std::alloc::Global;
use std::{env, fs};

fn opened(alloc: Global, file: &[u8], key: &Derived, count: u32) -> usize {
    let mut items = 0;
    for _ in 0..count {
        if let Ok(content) = open(alloc, file, key) {
            items = content.items.len();
        }
    }
    items
}

fn sealed(alloc: Global, file: &[u8], key: &Derived, count: u32) -> usize {
    let mut bytes = 0;
    if let Ok(content) = open(alloc, file, key) {
        for _ in 0..count {
            if let Ok(found) = seal(alloc, &content, key) {
                bytes = found.len();
            }
        }
    }
    bytes
}

fn once(key: &Derived, decrypts: bool, blocks: &mut [u8]) {
    let cipher = Key::new(key.key());
    if blocks.len() % 16 == 0 {
        if decrypts {
            cipher.decrypt_in_place(key.vector(), blocks);
        } else {
            cipher.encrypt_in_place(key.vector(), blocks);
        }
    }
}

fn digests(bytes: &[u8], count: usize) -> usize {
    let mut sum = 0usize;
    for _ in 0..count {
        let [first, ..] = Md5::digest(bytes);
        sum = sum.wrapping_add(first as usize);
    }
    sum
}

fn run(alloc: Global, word: &str, count: u32, file: Vec<u8>, area: usize) -> Option<usize> {
    let password = Bytes::from_slice(alloc, b"password").ok()?;
    let key = derive(password, *b"saltsalt", 1);
    let mut blocks = vec![in alloc; 7u8; area].ok()?;
    if word == "open" {
        return Some(opened(alloc, file.as_slice(), &key, count));
    }
    if word == "seal" {
        return Some(sealed(alloc, file.as_slice(), &key, count));
    }
    if word == "md5" {
        return Some(digests(blocks.as_slice(), count as usize));
    }
    if word == "hashes" {
        return Some(digests(b"user1234@example.org", (count as usize).saturating_mul(area)));
    }
    if word == "nothing" {
        return Some(0);
    }
    for _ in 0..count {
        once(&key, word == "decrypt", blocks.as_mut_slice());
    }
    Some(blocks.len())
}

fn main(rt: HostRuntime) {
    if let Ok(words) = env::args(&rt) {
        let mut words = words;
        let _name = words.next();
        if let (Some(word), Some(count), Some(path), Some(area)) =
            (words.next(), words.next(), words.next(), words.next())
        {
            let count = count.as_str().parse::<u32>().unwrap_or(0);
            let area = area.as_str().parse::<usize>().unwrap_or(0);
            if let Ok(file) = fs::read(&rt, path.as_str()) {
                if let Some(number) = run(rt.alloc(), word.as_str(), count, file, area) {
                    let _ = println!(rt; "{number}");
                }
            }
        }
    }
}
"""


KEYRING_PYTHON = r"""
import hashlib, struct, sys
from cryptography.hazmat.primitives.ciphers import Cipher, algorithms, modes

word, rounds, path = sys.argv[1], int(sys.argv[2]), sys.argv[3]
digest = hashlib.sha256(b"passwordsaltsalt").digest()
cipher = Cipher(algorithms.AES(digest[:16]), modes.CBC(digest[16:]))
number = lambda n: n.to_bytes(4, "big")
string = lambda text: number(len(text)) + text
none = number(0xffffffff)


class Reader:
    def __init__(self, data, place):
        self.data, self.place = data, place

    def take(self, count):
        self.place += count
        if self.place > len(self.data):
            raise ValueError("Short")
        return self.data[self.place - count:self.place]

    def number(self):
        return int.from_bytes(self.take(4), "big")

    def string(self):
        count = self.number()
        return b"" if count == 0xffffffff else self.take(count)

    def text(self):
        text = self.string().decode()
        if "\0" in text:
            raise ValueError("BadText")
        return text

    def pairs(self, text):
        found = {}
        for _ in range(self.number()):
            name = self.text()
            if name in found:
                raise ValueError("DuplicateName")
            kind = self.number()
            found[name] = text() if kind == 0 else self.number()
        return found


def opened(data):
    read = Reader(data, 20)
    front = read.text(), read.take(16), read.number(), read.number(), read.number(), read.take(8), read.take(16)
    clear, ids = [], set()
    for _ in range(read.number()):
        clear.append((read.number(), read.number(), read.pairs(read.string)))
        ids.add(clear[-1][0])
    if len(ids) != len(clear):
        raise ValueError("DuplicateId")
    decryptor = cipher.decryptor()
    area = decryptor.update(read.take(read.number())) + decryptor.finalize()
    if hashlib.md5(area[16:]).digest() != area[:16]:
        raise ValueError("CheckDiffers")
    read, items = Reader(area, 16), []
    for _ in clear:
        first = read.text(), read.string(), read.take(16), read.string(), read.take(16)
        items.append((first, read.pairs(read.text), [(read.number(), read.text(), read.text(), read.string(), read.number()) for _ in range(read.number())]))
    return front, clear, items


def sealed(content):
    front, clear, items = content
    rows = sorted(zip(clear, items), key=lambda row: row[0][0])
    parts, area = [], []
    for (ident, kind, _), ((label, secret, times, _, _), pairs, access) in rows:
        names = sorted(pairs)
        parts.append(number(ident) + number(kind) + number(len(names)) + b"".join(
            string(name.encode()) + number(0) + string(hashlib.md5(pairs[name].encode()).hexdigest().encode()) for name in names))
        area.append(string(label.encode()) + string(secret) + times + none + bytes(16) + number(len(names)) + b"".join(
            string(name.encode()) + number(0) + string(pairs[name].encode()) for name in names) + number(0))
    body = b"".join(area)
    body += bytes(-len(body) % 16)
    encryptor = cipher.encryptor()
    hidden = encryptor.update(hashlib.md5(body).digest() + body) + encryptor.finalize()
    name, times, flags, timeout, iterations, salt, _ = front
    return (data[:20] + string(name.encode()) + times + number(flags) + number(timeout) + number(iterations) + salt + bytes(16)
            + number(len(rows)) + b"".join(parts) + number(len(hidden)) + hidden)


data = open(path, "rb").read()
content = opened(data)
for _ in range(rounds):
    if word == "open":
        content = opened(data)
    if word == "seal" and sealed(content) != data:
        raise ValueError("it is sealed to other bytes")
print(len(content[2]))
"""


def measure(folder):
    names = ["kr_base", "kr_items", "aes_cbc", "attribute_hash", "key_derivation", "keyring_text", "keyring_file", "keyring_seal"]
    ours = rattle_program(folder / "rattle", "keyring_bench", KEYRING_PROGRAM, lines_of(names), " md5")
    areas = {items: keyring_file(folder / f"{items}.keyring", items) for items in (1000, 10000, 100000)}

    def spent(word, items):
        """Seconds for one time, without what the program takes to start and to read the file."""
        words = [folder / f"{items}.keyring", items if word == "hashes" else areas[items]]
        rounds = OPENINGS * 10000 // items
        before = best([ours, "open" if word == "seal" else "nothing", 1, *words])[0]
        return (best([ours, word, rounds, *words])[0] - before) / rounds

    for items in areas:
        size = (folder / f"{items}.keyring").stat().st_size
        for word, wanted in ("open", items), ("seal", size):
            if run([ours, word, 1, folder / f"{items}.keyring", areas[items]]) != f"{wanted}\n":
                sys.exit(f"scripts/bench: {word} of the file of {items} items doesn't give {wanted}")
    whole = {(word, items): spent(word, items) for word in ("open", "seal") for items in areas}
    digest, hashes = spent("md5", 10000), spent("hashes", 10000)
    size = (folder / "10000.keyring").stat().st_size
    for word, cipher in ("open", "decrypt"), ("seal", "encrypt"):
        blocks = spent(cipher, 10000)
        rest = whole[word, 10000] - blocks - digest - (hashes if word == "seal" else 0)
        few, many = (whole[word, items] * 10000 / items / whole[word, 10000] for items in (1000, 100000))
        print(f"keyring_seal {word} of 10,000 items in {size} bytes: beside AES and MD5 it costs {rest / blocks:.2f} of what AES costs")
        print(f"  ({whole[word, 10000] * 1e3:.1f} ms; AES {blocks * 1e3:.1f}, MD5 of the area {digest * 1e3:.1f}, of the attributes {hashes * 1e3:.1f});")
        print(f"  an item among 1,000 takes {few:.2f} and among 100,000 {many:.2f} of one among 10,000")
    if subprocess.run([sys.executable, "-c", "import cryptography"], capture_output=True).returncode == 0:
        (folder / "peer.py").write_text(KEYRING_PYTHON)
        for word in "open", "seal":
            words = [sys.executable, folder / "peer.py", word]
            before = best([*words, 0, folder / "10000.keyring"])[0]
            took = (best([*words, 5, folder / "10000.keyring"])[0] - before) / 5
            print(f"  {word} takes {whole[word, 10000] / took:.2f} of the time of a program in Python over OpenSSL")
    size = (folder / "100000.keyring").stat().st_size
    words = [folder / "100000.keyring", areas[100000]]
    for word in "open", "seal":
        most, least = (peak([ours, it, 1, *words]) for it in (word, "nothing"))
        print(f"keyring_seal {word} of 100,000 items: {(most - least) / size + 1:.2f} times the {size} bytes of the file at once, the file included")
