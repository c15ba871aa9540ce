"""The items of a collection with the index of their attributes, against a program in C that keeps the same index in
glibc's binary tree (tsearch), with a sorted array of ids at each pair: a search for a pair that one item has, the same
again and again and all in turn, and an item added and removed, among 1,000 and 100,000 items; an id put into the middle
of a long list and taken out; the memory of the index, for each pair; a search for 65,001 pairs of which no item has one;
and one for 256 pairs with empty texts, which all items have, among 10,000 and 100,000 items."""
import sys

from benchmarks.shared import best, c_program, lines_of, peak, rattle_program, run

ITEMS_PROGRAM = """//! Adds items to a collection, then searches or changes them as often as is told, and prints a number.
#![tactic(auto)]

use item_store::{ItemStore, Row};
use keyring_file::FullItem;
use kr_base::{Attributes, Bytes, IdList, ItemId, Text};
use kr_items::Items;
use std::alloc::Global;
use std::collections::BTreeMap;
use std::env;

fn text(alloc: Global, words: &str) -> Option<Text> {
    Text::from_str(alloc, words).ok()?
}

fn one(alloc: Global, name: &str, number: u32) -> Option<Attributes> {
    let mut pairs = Vec::new(alloc);
    pairs.push((text(alloc, name)?, Text::of_number(number))).ok()?;
    Attributes::from_pairs(alloc, pairs).ok()
}

fn two(alloc: Global, number: u32) -> Option<Attributes> {
    let mut pairs = Vec::new(alloc);
    pairs.push((text(alloc, "group")?, Text::of_number(number % 10))).ok()?;
    pairs.push((text(alloc, "number")?, Text::of_number(number))).ok()?;
    Attributes::from_pairs(alloc, pairs).ok()
}

// Two names that all items have, each with a text of the item's own.
fn texts(alloc: Global, number: u32) -> Option<Attributes> {
    let mut pairs = Vec::new(alloc);
    pairs.push((text(alloc, "group")?, Text::of_number(number))).ok()?;
    pairs.push((text(alloc, "number")?, Text::of_number(number))).ok()?;
    Attributes::from_pairs(alloc, pairs).ok()
}

// Attributes named by the numbers from the first one on.
fn many(alloc: Global, first: u32, count: u32, value: &str) -> Option<Attributes> {
    let mut pairs = Vec::new(alloc);
    for number in 0..count {
        pairs.push((Text::of_number(first.saturating_add(number)), text(alloc, value)?)).ok()?;
    }
    Attributes::from_pairs(alloc, pairs).ok()
}

// 256 attributes with empty values, of which one has an empty name.
fn blank(alloc: Global) -> Option<Attributes> {
    let mut pairs = Vec::new(alloc);
    pairs.push((text(alloc, "")?, text(alloc, "")?)).ok()?;
    for number in 1..256u32 {
        pairs.push((Text::of_number(number), text(alloc, "")?)).ok()?;
    }
    Attributes::from_pairs(alloc, pairs).ok()
}

fn item(alloc: Global, attributes: Attributes) -> Option<FullItem> {
    Some(FullItem {
        label: text(alloc, "label")?,
        value: Bytes::from_slice(alloc, b"secret").ok()?,
        created: 0,
        modified: 0,
        attributes,
        access: Items::empty(alloc),
    })
}

fn filled(alloc: Global, count: u32) -> Option<ItemStore> {
    let mut items = ItemStore::new(alloc);
    for number in 0..count {
        items.add(item(alloc, two(alloc, number)?)?, 0).ok()?;
    }
    Some(items)
}

fn spread(round: u32, count: u32) -> u32 {
    round.wrapping_mul(7919) % count.max(1)
}

// Searches for the pairs of all items in turn, or for one of them again and again.
fn searched(alloc: Global, count: u32, rounds: u32, turn: u32) -> Option<usize> {
    let items = filled(alloc, count)?;
    let mut found = 0usize;
    for round in 0..rounds {
        let ids = items.search(&one(alloc, "number", spread(round.wrapping_mul(turn), count))?).ok()?;
        found = found.saturating_add(ids.len());
    }
    Some(found)
}

fn added(alloc: Global, count: u32, rounds: u32) -> Option<usize> {
    let mut items = filled(alloc, count)?;
    for round in 0..rounds {
        let number = count.saturating_add(spread(round, count));
        let id = items.add(item(alloc, two(alloc, number)?)?, 0).ok()?;
        items.remove(id).ok()?;
    }
    Some(items.rows().len())
}

// Even ids; odd ones are put among them and taken out again.
fn listed(alloc: Global, count: u32, rounds: u32) -> Option<usize> {
    let mut ids = IdList::new(alloc);
    for number in 0..count {
        ids.insert(alloc, ItemId(number.wrapping_mul(2))).ok()?;
    }
    for round in 0..rounds {
        let id = ItemId(spread(round, count).wrapping_mul(2).saturating_add(1));
        ids.insert(alloc, id).ok()?;
        ids.remove(alloc, id);
    }
    Some(ids.len())
}

// Searches for so many pairs and one more, which no item has. The others are those of 256 items with 256 each.
fn nowhere(alloc: Global, count: u32, rounds: u32) -> Option<usize> {
    let mut items = ItemStore::new(alloc);
    for number in 0..256u32 {
        items.add(item(alloc, many(alloc, number.wrapping_mul(256), 256, "v")?)?, 0).ok()?;
    }
    let mut pairs = Vec::new(alloc);
    for number in 0..count {
        pairs.push((Text::of_number(number), text(alloc, "v")?)).ok()?;
    }
    pairs.push((text(alloc, "nowhere")?, text(alloc, "v")?)).ok()?;
    let wanted = Attributes::from_pairs(alloc, pairs).ok()?;
    let mut found = 0usize;
    for _ in 0..rounds {
        found = found.saturating_add(items.search(&wanted).ok()?.len());
    }
    Some(found.saturating_add(wanted.len()))
}

fn equal(alloc: Global, count: u32, rounds: u32) -> Option<usize> {
    let wanted = blank(alloc)?;
    let mut items = ItemStore::new(alloc);
    for _ in 0..count {
        items.add(item(alloc, wanted.copy().ok()?)?, 0).ok()?;
    }
    let mut found = 0usize;
    for _ in 0..rounds {
        found = found.saturating_add(items.search(&wanted).ok()?.len());
    }
    Some(found.saturating_add(items.rows().len()))
}

// The attributes of an item in no more room than they need: with names that all items share, with names of their own (in
// order, or with long texts too), with names that two items share, or 256 that all items have.
fn held(alloc: Global, kind: &str, number: u32) -> Option<Attributes> {
    if kind.ends_with("none") {
        return Some(Attributes::new(alloc));
    }
    if kind.ends_with("own") {
        return many(alloc, number.wrapping_mul(2), 2, "v")?.copy().ok();
    }
    if kind.ends_with("rising") {
        return many(alloc, number.wrapping_mul(2).saturating_add(1000000), 2, "v")?.copy().ok();
    }
    if kind.ends_with("long") {
        return many(alloc, number.wrapping_mul(2), 2, "a text that is longer than a short one may be")?.copy().ok();
    }
    if kind.ends_with("pairwise") {
        return many(alloc, (number / 2).wrapping_mul(2), 2, "v")?.copy().ok();
    }
    if kind.ends_with("texts") {
        return texts(alloc, number)?.copy().ok();
    }
    if kind.ends_with("whole") {
        return many(alloc, number.wrapping_mul(256), 256, "v")?.copy().ok();
    }
    if kind.ends_with("equal") {
        return blank(alloc)?.copy().ok();
    }
    two(alloc, number)?.copy().ok()
}

fn rows(alloc: Global, kind: &str, count: u32) -> Option<usize> {
    let mut rows = BTreeMap::new(alloc);
    for number in 0..count {
        let item = item(alloc, held(alloc, kind, number)?)?;
        rows.insert(number, Row { kind: 0, item }).ok()?;
    }
    Some(rows.len())
}

fn indexed(alloc: Global, kind: &str, count: u32) -> Option<usize> {
    let mut items = ItemStore::new(alloc);
    for number in 0..count {
        items.add(item(alloc, held(alloc, kind, number)?)?, 0).ok()?;
    }
    Some(items.rows().len())
}

fn run(alloc: Global, what: &str, count: u32, rounds: u32) -> Option<usize> {
    match what {
        "search" => searched(alloc, count, rounds, 1),
        "again" => searched(alloc, count, rounds, 0),
        "add" => added(alloc, count, rounds),
        "list" => listed(alloc, count, rounds),
        "nowhere" => nowhere(alloc, count, rounds),
        "equal" => equal(alloc, count, rounds),
        _ => {
            if what.starts_with("rows") {
                return rows(alloc, what, count);
            }
            indexed(alloc, what, count)
        }
    }
}

fn main(rt: HostRuntime) {
    if let Ok(words) = env::args(&rt) {
        let mut words = words;
        let _name = words.next();
        let what = words.next();
        let count = words.next().map_or(0, |word| word.as_str().parse::<u32>().unwrap_or(0));
        let rounds = words.next().map_or(0, |word| word.as_str().parse::<u32>().unwrap_or(0));
        if let Some(what) = what {
            if let Some(number) = run(rt.alloc(), what.as_str(), count, rounds) {
                let _ = println!(rt; "{number}");
            }
        }
    }
}
"""

ITEMS_C = r"""
/* Items, each with copies of its texts, and beside them the index over tsearch: a tree of pairs, each with its rising ids. */
#include <search.h>
#include <stdint.h>
#include <stdio.h>
#include <stdlib.h>
#include <string.h>

struct list { uint32_t *ids; size_t length, room; };
struct pair { char *name, *text; struct list list; };
struct item { char *label, *value; char *(*texts)[2]; size_t count; uint32_t id; };

static void *tree;
static struct item **rows;
static size_t length, room;
static int is_indexed = 1;

static int by_pair(const void *a, const void *b) {
    const struct pair *one = a, *other = b;
    int order = strcmp(one->name, other->name);
    return order ? order : strcmp(one->text, other->text);
}

static size_t place_of(const struct list *it, uint32_t id) {
    size_t low = 0, high = it->length;
    while (low < high) {
        size_t middle = low + (high - low) / 2;
        if (it->ids[middle] < id) low = middle + 1; else high = middle;
    }
    return low;
}

static void put_id(struct list *it, uint32_t id) {
    if (it->length == it->room) it->ids = realloc(it->ids, (it->room = it->room ? 2 * it->room : 1) * sizeof *it->ids);
    size_t place = place_of(it, id);
    memmove(it->ids + place + 1, it->ids + place, (it->length++ - place) * sizeof *it->ids);
    it->ids[place] = id;
}

static void take_id(struct list *it, uint32_t id) {
    size_t place = place_of(it, id);
    memmove(it->ids + place, it->ids + place + 1, (--it->length - place) * sizeof *it->ids);
}

static int has_id(const struct list *it, uint32_t id) {
    size_t place = place_of(it, id);
    return place < it->length && it->ids[place] == id;
}

static void put(char *name, char *text, uint32_t id) {
    struct pair key = {name, text};
    struct pair **found = tfind(&key, &tree, by_pair);
    struct pair *it;
    if (found) it = *found;
    else {
        it = calloc(1, sizeof *it);
        it->name = strdup(name);
        it->text = strdup(text);
        tsearch(it, &tree, by_pair);
    }
    put_id(&it->list, id);
}

static void take(char *name, char *text, uint32_t id) {
    struct pair key = {name, text};
    struct pair *it = *(struct pair **)tfind(&key, &tree, by_pair);
    take_id(&it->list, id);
    if (it->list.length) return;
    tdelete(it, &tree, by_pair);
    free(it->name); free(it->text); free(it->list.ids); free(it);
}

/* The ids that all wanted pairs have, in memory of their own: those of the shortest list that the others have too. */
static size_t find(struct item *wanted) {
    static struct list none;
    struct list **lists = malloc(wanted->count * sizeof *lists), *least = 0;
    for (size_t k = 0; k < wanted->count; k++) {
        struct pair key = {wanted->texts[k][0], wanted->texts[k][1]};
        struct pair **it = tfind(&key, &tree, by_pair);
        lists[k] = it ? &(*it)->list : &none;
        if (!least || lists[k]->length < least->length) least = lists[k];
    }
    struct list found = {0};
    for (size_t at = 0; at < least->length; at++) {
        uint32_t id = least->ids[at];
        size_t k = 0;
        while (k < wanted->count && (lists[k] == least || has_id(lists[k], id))) k++;
        if (k == wanted->count) put_id(&found, id);
    }
    free(lists); free(found.ids);
    return found.length;
}

static struct item *made(size_t count) {
    struct item *it = malloc(sizeof *it);
    it->label = strdup("label"); it->value = strdup("secret");
    it->texts = malloc(count * sizeof *it->texts); it->count = count;
    return it;
}

static char *number(uint32_t n) {
    char text[16];
    sprintf(text, "%u", n);
    return strdup(text);
}

static struct item *two(uint32_t n) {
    struct item *it = made(2);
    it->texts[0][0] = strdup("group"); it->texts[0][1] = number(n % 10);
    it->texts[1][0] = strdup("number"); it->texts[1][1] = number(n);
    return it;
}

static struct item *many(uint32_t first, size_t count, char *value) {
    struct item *it = made(count);
    for (size_t k = 0; k < count; k++) { it->texts[k][0] = number(first + k); it->texts[k][1] = strdup(value); }
    return it;
}

static struct item *texts(uint32_t n) {
    struct item *it = made(2);
    it->texts[0][0] = strdup("group"); it->texts[0][1] = number(n);
    it->texts[1][0] = strdup("number"); it->texts[1][1] = number(n);
    return it;
}

static struct item *blank(void) {
    struct item *it = many(0, 256, "");
    it->texts[0][0][0] = 0;
    return it;
}

static void drop(struct item *it) {
    free(it->label); free(it->value);
    for (size_t k = 0; k < it->count; k++) { free(it->texts[k][0]); free(it->texts[k][1]); }
    free(it->texts); free(it);
}

static void add(struct item *it) {
    it->id = length ? rows[length - 1]->id + 1 : 1;
    if (length == room) rows = realloc(rows, (room = room ? 2 * room : 1) * sizeof *rows);
    rows[length++] = it;
    if (is_indexed) for (size_t k = 0; k < it->count; k++) put(it->texts[k][0], it->texts[k][1], it->id);
}

int main(int argc, char **argv) {
    char *what = argv[1];
    uint32_t count = strtoul(argv[2], 0, 10), rounds = strtoul(argv[3], 0, 10);
    size_t found = 0;
    struct list ids = {0};
    struct item *wanted = blank();
    is_indexed = strncmp(what, "rows", 4);
    if (!strcmp(what, "list")) for (uint32_t n = 0; n < count; n++) put_id(&ids, 2 * n);
    else if (!strcmp(what, "equal")) for (uint32_t n = 0; n < count; n++) add(blank());
    else if (!strcmp(what, "nowhere")) {
        for (uint32_t n = 0; n < 256; n++) add(many(256 * n, 256, "v"));
        wanted = many(0, count + 1, "v");
        wanted->texts[count][0] = "nowhere";
    } else for (uint32_t n = 0; n < count; n++) 
        add(strstr(what, "none") ? made(0) : strstr(what, "own") ? many(2 * n, 2, "v") : strstr(what, "equal") ? blank()
            : strstr(what, "rising") ? many(2 * n + 1000000, 2, "v") : strstr(what, "pairwise") ? many(n / 2 * 2, 2, "v")
            : strstr(what, "long") ? many(2 * n, 2, "a text that is longer than a short one may be")
            : strstr(what, "texts") ? texts(n) : strstr(what, "whole") ? many(256 * n, 256, "v") : two(n));
    for (uint32_t round = 0; round < rounds; round++) {
        uint32_t n = strcmp(what, "again") ? round * 7919 % count : 0;
        if (!strcmp(what, "search") || !strcmp(what, "again")) {
            struct item *one = made(1);
            one->texts[0][0] = strdup("number"); one->texts[0][1] = number(n);
            found += find(one);
            drop(one);
        } else if (!strcmp(what, "add")) {
            add(two(count + n));
            struct item *it = rows[--length];
            for (size_t k = 0; k < it->count; k++) take(it->texts[k][0], it->texts[k][1], it->id);
            drop(it);
        } else if (!strcmp(what, "list")) {
            put_id(&ids, 2 * n + 1);
            take_id(&ids, 2 * n + 1);
        } else found += find(wanted);
    }
    printf("%zu\n", !strcmp(what, "search") || !strcmp(what, "again") ? found : !strcmp(what, "list") ? ids.length
        : !strcmp(what, "nowhere") ? found + wanted->count : !strcmp(what, "equal") ? found + length : length);
}
"""


def measure(folder):
    names = ["kr_base", "kr_items", "attribute_hash", "keyring_text", "keyring_file", "attribute_match", "attribute_index", "item_store"]
    ours = rattle_program(folder / "rattle", "items_bench", ITEMS_PROGRAM, lines_of(names))
    theirs = c_program(folder, "items_tree", ITEMS_C)

    def spent(program, what, count, rounds, runs=5):
        """Seconds for one round among so many items."""
        took, printed = best([program, what, count, rounds], runs)
        wanted = {"search": rounds, "again": rounds, "nowhere": count + 1, "equal": count + count * rounds}.get(what, count)
        if int(printed) != wanted:
            sys.exit(f"scripts/bench: {program} {what} prints {printed.strip()}, and not {wanted}")
        return (took - best([program, what, count, 0], runs)[0]) / rounds

    for what, rounds, told in ("again", 3000000, "a search for the same pair, which one item has"), ("search", 300000, "a search for the pairs of all items in turn"), ("add", 200000, "an item added and removed"), (
            "list", 300000, "an id put into the middle of a list and taken out"):
        few, many = (spent(ours, what, count, rounds) for count in (1000, 100000))
        peer, peers = (spent(theirs, what, count, rounds) for count in (1000, 100000))
        print(f"item_store, {told}: {few / peer:.2f} of the peer's time among 1,000, {many / peers:.2f} among 100,000;")
        print(f"  among 100,000 {many / few:.2f} of among 1,000 (the peer {peers / peer:.2f}); {many * 1e9:.0f} ns")
    for kind, items, each, told in ("shared", 100000, 2, "two pairs, with names that all share"), ("texts", 100000, 2, "two pairs, with texts of their own"), (
            "own", 100000, 2, "two pairs, with names of their own"), ("rising", 100000, 2, "two pairs, with names of their own in order"), (
            "long", 100000, 2, "two pairs, with names of their own and long texts"), ("whole", 10000, 256, "256 pairs, with names of their own"), (
            "pairwise", 100000, 2, "two pairs that two items have"), ("equal", 10000, 256, "256 pairs that all have"):
        for program, of in (ours, "item_store"), (theirs, "the peer"):
            none, alone, both = (peak([program, f"{it}_{kind}", items, 0]) for it, kind in (("rows", "none"), ("rows", kind), ("index", kind)))
            print(f"{of}, items of {told}: a pair takes {(alone - none) / items / each:.1f} bytes, and {(both - alone) / items / each:.1f} in the index")
    for program, of in (ours, "item_store"), (theirs, "the peer"):
        some, wanted = spent(program, "nowhere", 6500, 100, 3), spent(program, "nowhere", 65000, 10, 3)
        print(f"{of}, a search for 65,000 pairs and one that is nowhere: {wanted / 65001 * 1e9:.0f} ns a pair, {wanted / some / 10:.2f} of a tenth of them")
    for program, of in (ours, "item_store"), (theirs, "the peer"):
        few, many = (spent(program, "equal", count, 4, 1) / count / 255 for count in (10000, 100000))
        print(f"{of}, a search for 256 empty pairs that all of 100,000 items have: {many * 1e9:.0f} ns a lookup, {many / few:.2f} of among 10,000")
