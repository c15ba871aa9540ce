"""What a turn costs by itself, against a mutex of the C library and a lock of tickets in C around the same work, without
and with contention; what the turn of a service that threads share costs against the mutex, and how many requests eight
threads bring; and whether a thread that waits uses the processor."""
import time
from benchmarks.shared import ROOT, best, c_program, lines_of, processor_time, rattle_program, run

TURN_PROGRAM = """//! `turns`: threads that change a number by turns, so often together; prints the fewest changes of a thread, and the most.
//! `alone`: the same without turns. `waits`: one thread keeps the turn for two seconds, and one waits for the
//! turn meanwhile.
#![tactic(auto)]

ghost use Rattle.std.specs.Prelude.{◌≡◌, ◌+◌, ◌<◌, ◌∷◌, [], length, true, false, Some};
ghost use Rattle.std.specs.Arc.{arc_value};

use shared_turn::{Chronicle, Pass, Turn};
use std::alloc::Global;
use std::sync::{Arc, Wait};
use std::thread::Threads;
use std::time::{Clock, Duration};
use std::{env, thread};

/// A number that is changed by turns, and how often it was.
#[derive(Drop)]
struct Tally {
    number: u64,
    count: u64,
}

impl Chronicle for Tally {
    type Start = u64;

    type Event = u64;

    ghost start = { λ tally. 0 };

    ghost before = { λ tally. 0 };

    ghost events = { λ tally. [] };

    ghost stands = { λ tally start before events. tally.count ≡ before + length events };

    ghost newest = { λ tally. tally.number ∷ [] };
}

/// A thread that takes turns.
#[derive(Drop)]
struct Caller<R: Wait> {
    rt: R,
    turn: Arc<Turn<Tally>, Global>,
    pass: Pass<Tally>,
    calls: u64,
    ghost fits: { pass.table ≡ arc_value turn },
    ghost starts: { pass.start ≡ Some 0 },
    ghost outside: { pass.has_turn ≡ false },
}

fn worked(number: u64, rounds: u64) -> u64 {
    let mut number = number;
    for _ in 0..rounds {
        number ^= number << 13;
        number ^= number >> 7;
        number ^= number << 17;
    }
    number
}

// Gives the number back, changed once more.
fn change(turn: &Turn<Tally>, pass: &mut Pass<Tally>, count: u64, number: u64)
    requires table { pass.old.table ≡ turn.now }
    requires inside { pass.old.has_turn ≡ true }
    requires count { count ≡ pass.old.before + length pass.old.seen }
    requires few { count < 18446744073709551615 }
    ensures { (pass.new.table ≡ pass.old.table) × (pass.new.start ≡ pass.old.start)
        × (pass.new.has_turn ≡ false) }
{
    turn.record(
        pass,
        Tally {
            number,
            count: count + 1,
        },
    );
}

impl<R: Wait> Caller<R> {
    // Takes a turn, changes the number unless it was changed as often as it should be, and returns whether it did.
    fn call(&mut self, total: u64, rounds: u64) -> bool {
        let pass = &mut self.pass;
        let Tally { number, count } = self.turn.enter(&self.rt, pass);
        if count < total {
            let number = worked(number, rounds);
            change(&self.turn, pass, count, number);
            true
        } else {
            self.turn.give_back(pass, Tally { number, count });
            false
        }
    }

    fn calls(&mut self, total: u64, rounds: u64) {
        for _ in 0..u64::MAX {
            if !self.call(total, rounds) {
                return;
            }
            self.calls = self.calls.saturating_add(1);
        }
    }

    // Keeps the turn for two seconds, from a while later on.
    fn keep(&mut self, clock: &impl Clock) {
        thread::sleep(clock, Duration::from_millis(100));
        let pass = &mut self.pass;
        let Tally { number, count } = self.turn.enter(&self.rt, pass);
        thread::sleep(clock, Duration::from_millis(2000));
        if count < u64::MAX {
            change(&self.turn, pass, count, number);
        } else {
            self.turn.give_back(pass, Tally { number, count });
        }
    }

    // Takes a turn while that one is kept.
    fn follow(&mut self, clock: &impl Clock) {
        thread::sleep(clock, Duration::from_millis(200));
        let _ = self.count();
    }

    // How often the number was changed.
    fn count(&mut self) -> u64 {
        let pass = &mut self.pass;
        let tally = self.turn.enter(&self.rt, pass);
        let count = tally.count;
        self.turn.give_back(pass, tally);
        count
    }
}

fn callers<R: Wait + Copy + Drop>(rt: R, alloc: Global, threads: usize) -> Option<Vec<Caller<R>>> {
    let tally = Tally {
        number: 88172645463325252,
        count: 0,
    };
    let (turn, mut pass) = Turn::open(alloc, tally, 0).ok()?;
    let turn = Arc::new(alloc, turn).ok()?;
    let mut callers = Vec::with_capacity(alloc, threads).ok()?;
    for _ in 0..threads {
        let pass = turn.note(&mut pass);
        let turn = Arc::try_clone(&turn).ok()?;
        callers
            .push(Caller {
                rt,
                turn,
                pass,
                calls: 0,
            })
            .ok()?;
    }
    Some(callers)
}

// The fewest calls of a thread, and the most.
fn turns<R: Wait + Threads + Copy + Drop + Send + Sync>(
    rt: R,
    alloc: Global,
    threads: usize,
    total: u64,
    rounds: u64,
) -> Option<(u64, u64)> {
    if threads == 0 {
        return None;
    }
    let mut callers = callers(rt, alloc, threads)?;
    thread::for_each_mut(
        &rt,
        callers.as_mut_slice(),
        threads,
        &|_, caller| caller.calls(total, rounds),
    );
    let mut least = u64::MAX;
    let mut most = 0;
    for caller in callers.as_slice() {
        least = least.min(caller.calls);
        most = caller.calls.max(most);
    }
    Some((least, most))
}

fn alone(total: u64, rounds: u64) -> u64 {
    let mut tally = Tally {
        number: 88172645463325252,
        count: 0,
    };
    for _ in 0..total {
        tally.number = worked(tally.number, rounds);
        tally.count = tally.count.saturating_add(1);
    }
    tally.number
}

fn waits<R: Wait + Threads + Clock + Copy + Drop + Send + Sync>(
    rt: R,
    alloc: Global,
) -> Option<()> {
    let mut callers = callers(rt, alloc, 2)?;
    thread::for_each_mut(
        &rt,
        callers.as_mut_slice(),
        2,
        &|place, caller| match place {
            0 => caller.keep(&rt),
            _ => caller.follow(&rt),
        },
    );
    Some(())
}

fn number_of(word: Option<String>) -> u64 {
    word.map_or(1, |word| word.as_str().parse::<u64>().unwrap_or(1))
}

fn main(rt: HostRuntime) {
    if let Ok(words) = env::args(&rt) {
        let mut words = words;
        let _name = words.next();
        if let Some(what) = words.next() {
            let threads = number_of(words.next());
            let total = number_of(words.next());
            let rounds = number_of(words.next());
            match what.as_str() {
                "alone" => {
                    let _ = println!(rt; "{}", alone(total, rounds));
                }
                "turns" => {
                    if let Some((least, most)) = turns(
                        rt,
                        rt.alloc(),
                        threads as usize,
                        total,
                        rounds,
                    ) {
                        let _ = println!(rt; "{least} {most}");
                    }
                }
                _ => {
                    let _ = waits(rt, rt.alloc());
                }
            }
        }
    }
}
"""

TURN_PROOFS = {
    "Lib.antt": "pub mod Tallies\n",
    "Tallies.antt": """-- A number that was changed once more.
use Rattle.std.proofs.Common.{◌≡◌, ℕ, ◌+◌, List, [], ◌∷◌, ◌++◌, length, arith, length-append}

pub one-more : (count before : ℕ) (seen : List ℕ) (event : ℕ) → count ≡ before + length seen → count + 1 ≡ before + length (seen ++ event ∷ [])
one-more count before seen event is = let long = length-append seen (event ∷ []) in omega (arith, long, is)
""",
    "callers/Invariants.antt": """use Rattle.std.proofs.Common.{◌≡◌, false, Some}
use Rattle.std.specs.Arc.{arc_value}
use Rattle.turn_bench.proofs.callers.Given as goal

-- the pass is of the same turn, and doesn't have it
abbrev pub invariant-loop : goal.invariant-loop
invariant-loop g l = (l.pass.table ≡ arc_value l.turn) × (l.pass.start ≡ Some 0) × (l.pass.has_turn ≡ false)
""",
    "change/Answers.antt": """use Rattle.std.proofs.Common.{refl, ap}
use Rattle.turn_bench.proofs.Tallies.{one-more}
use Rattle.turn_bench.proofs.change.Goals as goal

-- the number was changed once more
pub record-requires-clause-recorded : goal.record-requires-clause-recorded
record-requires-clause-recorded c = (c.args.number, record { newest_is = refl; stands = λ start at. one-more _ _ _ _ c.requires.count })

-- the turn was passed on
pub returns : goal.returns
returns c =
    let is = c.record.ensures c.args.number record { newest_is = refl; stands = λ start at. one-more _ _ _ _ c.requires.count } in
    (ap (λ view. view.table) is, ap (λ view. view.start) is, ap (λ view. view.has_turn) is)
""",
}

SERVICE_PROGRAM = """//! Threads that bring requests to one service: `alone`, to the service itself; `shared`, by a desk each; `waits`, one
//! that takes what another brings two seconds later.
#![tactic(auto)]

ghost use Rattle.std.specs.Prelude.{◌≡◌, IfSome};
ghost use Rattle.std.specs.Arc.{arc_value};

use kr_memory_disk::MemoryFolder;
use secret_calls::{Call, Request, Serial};
use service_desk::{ReadDesk, WriteDesk};
use service_machine::Arrival;
use shared_service::{Pass, SharedDesk, SharedService};
use std::alloc::Global;
use std::env;
use std::sync::{Arc, Wait};
use std::thread;
use std::thread::Threads;
use std::time::{Clock, Duration};

type Service = service_history::Service<MemoryFolder>;

type Shared = Arc<SharedService<MemoryFolder>, Global>;

fn ping(wants_reply: bool) -> Request {
    Request {
        serial: Serial { number: 1 },
        wants_reply,
        length: 128,
        call: Ok(Call::Ping),
    }
}

fn opened(alloc: Global) -> Option<Service> {
    let folder = MemoryFolder::new(alloc, Vec::new(alloc));
    Service::open(alloc, folder).ok()
}

fn alone(alloc: Global, count: u64) -> Option<usize> {
    let mut service = opened(alloc)?;
    let conn = service.join().ok()?;
    for _ in 0..count {
        service.arrive(Arrival { conn, request: ping(false), now: 0, salt: [0; 8] }).ok()?;
    }
    Some(service.events().len())
}

fn shared(alloc: Global) -> Option<(Shared, Pass<MemoryFolder>)>
    ensures { IfSome result (λ both. both.1.table ≡ arc_value both.0) }
{
    let (service, pass) = SharedService::open(alloc, opened(alloc)?).ok()?;
    let service = Arc::new(alloc, service).ok()?;
    Some((service, pass))
}

fn asks<D: ReadDesk>(desk: &mut D, count: u64) {
    for _ in 0..count {
        let _ = desk.arrive(ping(false), 0, [0; 8]);
    }
}

fn reader<R: Wait + Copy>(rt: R, service: &Shared, pass: &mut Pass<MemoryFolder>) -> Option<SharedDesk<R, MemoryFolder>>
    requires { pass.old.table ≡ arc_value service.now }
    ensures { pass.new.table ≡ pass.old.table }
{
    let (conn, reader, _) = service.join(&rt, pass).ok()?;
    Some(SharedDesk::new(rt, Arc::try_clone(service).ok()?, reader, conn))
}

fn readers<R: Wait + Copy + Drop>(
    rt: R,
    alloc: Global,
    service: &Shared,
    pass: &mut Pass<MemoryFolder>,
    threads: usize,
) -> Option<Vec<SharedDesk<R, MemoryFolder>>>
    requires { pass.old.table ≡ arc_value service.now }
    ensures { pass.new.table ≡ pass.old.table }
{
    let mut readers = Vec::with_capacity(alloc, threads).ok()?;
    for _ in 0..threads {
        readers.push(reader(rt, service, pass)?).ok()?;
    }
    Some(readers)
}

fn together<R: Wait + Threads + Copy + Drop + Send + Sync>(rt: R, alloc: Global, threads: usize, count: u64) -> Option<usize> {
    if threads == 0 {
        return None;
    }
    let (service, mut pass) = shared(alloc)?;
    let mut readers = readers(rt, alloc, &service, &mut pass, threads)?;
    thread::for_each_mut(&rt, readers.as_mut_slice(), threads, &|_, desk| asks(desk, count));
    Some(service.close(&rt, pass).events().len())
}

fn takes<D: WriteDesk>(desk: &mut D) {
    let _ = desk.take();
}

fn asks_later<D: ReadDesk>(clock: &impl Clock, desk: &mut D) {
    thread::sleep(clock, Duration::from_millis(2000));
    let _ = desk.arrive(ping(true), 0, [0; 8]);
}

// The desks of a connection's reader, and of its writer.
fn both<R: Wait + Copy + Drop>(
    rt: R,
    alloc: Global,
    service: &Shared,
    pass: &mut Pass<MemoryFolder>,
) -> Option<Vec<SharedDesk<R, MemoryFolder>>>
    requires { pass.old.table ≡ arc_value service.now }
{
    let (conn, reader, writer) = service.join(&rt, pass).ok()?;
    let mut desks = Vec::with_capacity(alloc, 2).ok()?;
    desks.push(SharedDesk::new(rt, Arc::try_clone(service).ok()?, reader, conn)).ok()?;
    desks.push(SharedDesk::new(rt, Arc::try_clone(service).ok()?, writer, conn)).ok()?;
    Some(desks)
}

fn waits<R: Wait + Threads + Clock + Copy + Drop + Send + Sync>(rt: R, alloc: Global) -> Option<usize> {
    let (service, mut pass) = shared(alloc)?;
    let mut desks = both(rt, alloc, &service, &mut pass)?;
    thread::for_each_mut(
        &rt,
        desks.as_mut_slice(),
        2,
        &|place, desk| match place {
            0 => asks_later(&rt, desk),
            _ => takes(desk),
        },
    );
    Some(0)
}

fn main(rt: HostRuntime) {
    if let Ok(words) = env::args(&rt) {
        let mut words = words;
        let _name = words.next();
        if let Some(what) = words.next() {
            let threads = words.next().map_or(1, |word| word.as_str().parse::<usize>().unwrap_or(1));
            let count = words.next().map_or(1, |word| word.as_str().parse::<u64>().unwrap_or(1));
            let stored = match what.as_str() {
                "alone" => alone(rt.alloc(), count),
                "shared" => together(rt, rt.alloc(), threads, count),
                _ => waits(rt, rt.alloc()),
            };
            if let Some(stored) = stored {
                let _ = println!(rt; "{stored}");
            }
        }
    }
}
"""

READERS_PROOF = """use Rattle.std.proofs.Common.{◌≡◌}
use Rattle.service_bench.proofs.readers.Given as goal

-- the pass is of the same service
abbrev pub invariant-loop : goal.invariant-loop
invariant-loop g l = l.pass.table ≡ l.initial.pass.table
"""

SENDS_PROOF = """use denote.Exit.{yes}
use denote.Param.Send.{arg_send, param_send}
use Rattle.service_bench.proofs.Sends.{desk-send}
use Rattle.service_bench.proofs.FUNCTION.Goals as goal

-- a desk may go to another thread
pub for_each_mut-requires-send-T : goal.for_each_mut-requires-send-T
for_each_mut-requires-send-T g c κs within = param_send _ _ (arg_send _ yes _ (desk-send _ c.type_bounds.send-R))
"""

# The same as `turns` and `alone`, with a mutex or tickets in place of the turn. Who waits for a ticket sleeps, and all
# who sleep are woken when a ticket is done.
LOCKS_C = r"""
#include <limits.h>
#include <linux/futex.h>
#include <pthread.h>
#include <stdatomic.h>
#include <stdio.h>
#include <stdlib.h>
#include <string.h>
#include <sys/syscall.h>
#include <unistd.h>
static pthread_mutex_t mutex = PTHREAD_MUTEX_INITIALIZER;
static _Atomic unsigned long drawn, served;
static unsigned long number = 88172645463325252, count, total, rounds;
static int with_mutex, with_tickets;
static void enter(void) {
    if (with_mutex) pthread_mutex_lock(&mutex);
    if (!with_tickets) return;
    unsigned long ticket = atomic_fetch_add(&drawn, 1), now;
    while ((now = atomic_load(&served)) != ticket)
        syscall(SYS_futex, &served, FUTEX_WAIT_PRIVATE, (unsigned)now, 0, 0, 0);
}
static void leave(void) {
    if (with_mutex) pthread_mutex_unlock(&mutex);
    if (!with_tickets) return;
    atomic_fetch_add(&served, 1);
    syscall(SYS_futex, &served, FUTEX_WAKE_PRIVATE, INT_MAX, 0, 0, 0);
}
static unsigned long worked(unsigned long number) {
    for (unsigned long k = 0; k < rounds; k++) {
        number ^= number << 13;
        number ^= number >> 7;
        number ^= number << 17;
    }
    return number;
}
static void *calls(void *own) {
    for (int more = 1; more;) {
        enter();
        more = count < total;
        if (more) number = worked(number), count++, ++*(unsigned long *)own;
        leave();
    }
    return own;
}
int main(int argc, char **argv) {
    if (argc < 5) return 1;
    with_mutex = !strcmp(argv[1], "mutex"), with_tickets = !strcmp(argv[1], "tickets");
    int threads = atoi(argv[2]);
    total = atol(argv[3]), rounds = atol(argv[4]);
    pthread_t started[64];
    unsigned long own[64][8] = {{0}}, least = -1, most = 0;
    for (int i = 0; i < threads; i++) pthread_create(&started[i], 0, calls, own[i]);
    for (int i = 0; i < threads; i++) {
        pthread_join(started[i], 0);
        if (own[i][0] < least) least = own[i][0];
        if (own[i][0] > most) most = own[i][0];
    }
    printf("%lu %lu\n", least, most);
    return number == 0;
}
"""

# how often the number is changed, by one thread and by all, and the rounds of work for each: few, some that take about 0.2
# microseconds, and many that take about 2
CHANGES, SHARED, FEW, SOME, MANY = 30000000, 300000, 10, 100, 1000

EVENTS = 400000


def service_proofs():
    """The program's own proof files. service_hub has the lemmas on what may be sent to another thread, but for the folder in memory,
    which tests_threads has."""
    lemmas = ROOT / "crates/tests_threads/proofs"
    files = {str(it.relative_to(lemmas)): it.read_text().replace("Rattle.tests_threads.", "Rattle.service_bench.")
             for it in (lemmas / "Sends.antt", lemmas / "Sends/KrMemoryDisk.antt")}
    sends = {f"{name}/Answers.antt": SENDS_PROOF.replace("FUNCTION", name) for name in ("together", "waits")}
    return {"Lib.antt": "pub mod Sends\n", **files, "readers/Invariants.antt": READERS_PROOF, **sends}


def quickest(words, rounds=5):
    """The least seconds of the clock that a run took, and what was printed last."""
    least, printed = None, None
    for _ in range(rounds):
        began = time.monotonic()
        printed = run(words)
        took = time.monotonic() - began
        least = took if least is None else min(least, took)
    return least, printed


def spent(words):
    """The seconds that the processor spent on a run."""
    before = processor_time()
    run(words)
    return processor_time() - before


def measure_turn(folder):
    """The turn by itself, and the locks in C."""
    turn = rattle_program(folder / "turn", "turn_bench", TURN_PROGRAM, lines_of(["shared_turn"]), " atomic_table", TURN_PROOFS)
    locks = c_program(folder, "locks", LOCKS_C, "-lpthread")
    cost = lambda program, lock: best([program, lock, 1, CHANGES, FEW])[0] - best([program, "alone", 1, CHANGES, FEW])[0]
    ours, mutex = cost(turn, "turns"), cost(locks, "mutex")
    print(f"a turn without contention takes {ours / mutex:.2f} of the time of a mutex")
    for rounds, work in (MANY, "work of about 2 microseconds"), (SOME, "work of about 0.2 microseconds"):
        took = {}
        for name, words in ("turns", [turn, "turns"]), ("a mutex", [locks, "mutex"]), ("tickets in C", [locks, "tickets"]):
            one, (took[name], counts) = quickest([*words, 1, SHARED, rounds])[0], quickest([*words, 8, SHARED, rounds])
            fewest, most = counts.split()
            print(f"{name}, {work}: eight threads have {one / took[name]:.2f} of the turns per second of one; one of them had {fewest}, another {most}")
        print(f"  turns take {took['turns'] / took['a mutex']:.2f} of the time with a mutex")
    print(f"a thread that waits for two seconds, and the one that it waits for: {spent([turn, 'waits']) / 2:.4f} of a processor")


def measure_service(folder):
    """The turn of a service, whose requests are calls of Ping."""
    service = rattle_program(
        folder / "service", "service_bench", SERVICE_PROGRAM, lines_of(["kr_memory_disk", "service_hub"]), " atomic_table", service_proofs())
    locks = c_program(folder, "locks", LOCKS_C, "-lpthread")
    alone, shared = best([service, "alone", 1, EVENTS])[0], best([service, "shared", 1, EVENTS])[0]
    unlocked, locked = best([locks, "alone", 1, CHANGES, FEW])[0], best([locks, "mutex", 1, CHANGES, FEW])[0]
    mutex = (locked - unlocked) / CHANGES
    more = shared - alone
    print(f"the turn of a request takes {more / EVENTS / mutex:.2f} of the time of a mutex, and {more / alone:.2f} of the request's own")
    one, eight = quickest([service, "shared", 1, EVENTS])[0], quickest([service, "shared", 8, EVENTS // 8])[0]
    print(f"eight threads bring {one / eight:.2f} of the requests per second of one")
    print(f"a take that waits for two seconds: {spent([service, 'waits']) / 2:.4f} of a processor")


def measure(folder):
    measure_turn(folder)
    measure_service(folder)
