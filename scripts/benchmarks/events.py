"""What an event of the service costs among many connections and sessions, and after many stored events, against one
alone."""
from benchmarks.shared import best, lines_of, rattle_program

EVENTS_PROGRAM = """//! Connections that open sessions, then as many requests of the first as are told, in as many services one after
//! the other; prints the stored events of the last.
#![tactic(auto)]

ghost use Rattle.service_history.specs.History.{IsAsked};

use kr_base::{ConnId, Text};
use kr_memory_disk::MemoryFolder;
use secret_calls::{Call, Request, Serial};
use service_history::Service;
use service_machine::{Arrival, Incoming};
use std::env;

fn asks(conn: ConnId, call: Call) -> Incoming
    ensures { IsAsked result }
{
    let request = Request {
        serial: Serial { number: 1 },
        wants_reply: true,
        length: 128,
        call: Ok(call),
    };
    Incoming::Arrive(Arrival {
        conn,
        request,
        now: 0,
        salt: [0; 8],
    })
}

fn run(rt: &HostRuntime, connections: u64, sessions: u64, count: u64) -> Option<usize> {
    let folder = MemoryFolder::new(rt.alloc(), Vec::new(rt.alloc()));
    let mut service = Service::open(rt.alloc(), folder).ok()?;
    for number in 0..connections {
        service.event(Incoming::Connect).ok()?;
        let conn = ConnId(number.saturating_add(1));
        for _ in 0..sessions {
            let algorithm = Text::from_str(rt.alloc(), "plain").ok()??;
            service.event(asks(conn, Call::OpenSession { algorithm })).ok()?;
        }
        let _ = service.take(conn);
    }
    for _ in 0..count {
        service.event(asks(ConnId(1), Call::Ping)).ok()?;
        let _ = service.take(ConnId(1));
    }
    Some(service.events().len())
}

fn main(rt: HostRuntime) {
    if let Ok(words) = env::args(&rt) {
        let mut words = words;
        let _name = words.next();
        let connections = words.next().map_or(0, |word| word.as_str().parse::<u64>().unwrap_or(0));
        let sessions = words.next().map_or(0, |word| word.as_str().parse::<u64>().unwrap_or(0));
        let count = words.next().map_or(0, |word| word.as_str().parse::<u64>().unwrap_or(0));
        let services = words.next().map_or(0, |word| word.as_str().parse::<u64>().unwrap_or(0));
        let mut last = None;
        for _ in 0..services {
            last = run(&rt, connections, sessions, count);
        }
        if let Some(stored) = last {
            let _ = println!(rt; "{stored}");
        }
    }
}
"""


def measure(folder):
    ours = rattle_program(folder, "events_bench", EVENTS_PROGRAM, lines_of(
        ["kr_base", "kr_memory_disk", "secret_calls", "service_machine", "service_history"]))

    def cost(connections, sessions, count, services=1):
        """Seconds for a request and its taking, without what stands before them."""
        before = best([ours, connections, sessions, 0, services])[0]
        return (best([ours, connections, sessions, count, services])[0] - before) / (count * services)

    # 4,000,000 requests are 8,000,000 events with their takings, so 122 cuts
    alone, among = cost(1, 0, 4000000), cost(256, 64, 4000000)
    early, late = cost(1, 0, 400, 8000), cost(1, 0, 32000, 100)
    print(f"service_history: an event among 256 connections with 16,384 sessions takes {among / alone:.2f} of one alone, cuts included,")
    print(f"  and the first 64,000 events of a window {late / early:.2f} of the first 800; alone {alone * 1e9:.0f} ns for a request and its taking")
