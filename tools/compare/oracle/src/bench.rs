//! What calls cost, of the unchanged source and of the port's `bench` library, in one process on the same inputs.

use std::fmt::Write as _;
use std::hint::black_box;
use std::num::NonZeroU32;
use std::time::{Duration, Instant};

use ironfix_core::SeqNum;

use crate::call::Config;
use crate::codes::Policy;
use crate::config::FixpConfig;
use crate::convert::Base;
use crate::messages::{Retransmission, RetransmitRequest, Sequence};
use crate::output::Delivery;
use crate::session::{Binding, Bound, Core, PeerMessage, Session};
use crate::translate;
use crate::types::{FlowType, Nanotime, SessionId};

unsafe extern "C" {
    safe fn fixp_bench_lists(gaps: u64, runs: u64) -> u64;
    safe fn fixp_bench_live(turns: u64, gaps: u64, runs: u64) -> u64;
    safe fn fixp_bench_plain(turns: u64, gaps: u64, runs: u64) -> u64;
    safe fn fixp_bench_same(turns: u64, next: u64) -> u64;
    safe fn fixp_bench_send(turns: u64) -> u64;
    safe fn fixp_bench_round(turns: u64) -> u64;
    safe fn fixp_bench_serve(turns: u64) -> u64;
    safe fn fixp_bench_idle(turns: u64) -> u64;
    fn fixp_bench_trace(trace: *const u8, len: usize, out: *mut u8, room: usize) -> usize;
}

/// The session's id, and every duration: no timer comes due.
const ID: [u8; 16] = [3; 16];
const LONG: u64 = 1_000_000_000_000;

const CONFIG: Config = Config {
    max_gap_len: 100,
    max_retransmit_count: 10,
    max_pending_gaps: 64,
    timeout: LONG,
    grace: None,
    policy: Policy::EventOnly,
};

/// How many gaps are asked for, and how many overflow runs: with runs there is one gap more, the held one.
const LISTS: [(u64, u64); 7] = [(0, 0), (1, 0), (8, 0), (64, 0), (64, 1), (64, 16), (64, 256)];

/// A bound session with the queue that a host empties after each call.
struct Host {
    base: Base,
    core: Core,
    session: Session,
    binding: Binding,
}

impl Host {
    fn new() -> Self {
        let base = Base::now();
        let config = FixpConfig::new(&CONFIG).expect("a configuration in range");
        let mut core = Core::new(config, base.clock(0, 0));
        let id = SessionId::from_bytes(ID);
        let mut session = Session::new(id, FlowType::Recoverable, FlowType::Recoverable);
        let long = Duration::from_nanos(LONG);
        let mut binding = session.bind(base.at(0), long, long);
        let bound = session.on_established(&mut core, &mut binding, Some(1), base.at(0));
        assert!(bound == Bound::Stay);
        Self { base, core, session, binding }
    }

    /// The outputs of a call go.
    #[inline]
    fn empty(&mut self) -> usize {
        let mut outputs = 0;
        while let Some(output) = self.core.poll_output() {
            black_box(&output);
            outputs += 1;
        }
        outputs
    }

    #[inline]
    fn application(&mut self, now: Instant) -> usize {
        let _ = black_box(self.session.on_application(
            &mut self.core,
            &mut self.binding,
            black_box(now),
        ));
        self.empty()
    }

    #[inline]
    fn peer(&mut self, message: PeerMessage<'_>, now: Instant) -> usize {
        let _ = black_box(self.session.on_peer(
            &mut self.core,
            &mut self.binding,
            message,
            black_box(now),
        ));
        self.empty()
    }

    #[inline]
    fn sequence(&mut self, next: u64, now: Instant) -> usize {
        let message = Sequence { next_seq_no: black_box(next) };
        self.peer(PeerMessage::Sequence(&message), now)
    }

    #[inline]
    fn send(&mut self, now: Instant) -> u64 {
        let sent = self.session.send_application(&mut self.core, &mut self.binding, black_box(now));
        self.empty();
        sent.ok().flatten().map_or(0, SeqNum::value)
    }

    fn expected(&self) -> u64 {
        self.session.next_inbound_seq().map_or(0, SeqNum::value)
    }

    /// So many gaps, a message between each two.
    fn with_gaps(gaps: u64) -> Self {
        let mut host = Self::new();
        let now = host.base.at(0);
        for i in 0..gaps {
            host.application(now);
            host.sequence(2 * i + 3, now);
        }
        host
    }

    /// So many overflow runs too: a message, a gap over the limit, which unbinds, and a bind, over and over. The first such gap is held by
    /// itself and makes no run.
    fn with_runs(gaps: u64, runs: u64) -> Self {
        let mut host = Self::with_gaps(gaps);
        let turns = if runs == 0 { 0 } else { runs + 1 };
        for _ in 0..turns {
            let now = host.base.at(0);
            host.application(now);
            host.sequence(host.expected() + 1, now);
            host.bind_again();
        }
        host
    }

    fn bind_again(&mut self) {
        let now = self.base.at(0);
        let long = Duration::from_nanos(LONG);
        self.session.release_binding_state();
        self.binding = self.session.bind(now, long, long);
        let next = Some(self.expected());
        let bound = self.session.on_established(&mut self.core, &mut self.binding, next, now);
        assert!(bound == Bound::Stay);
        self.empty();
    }

    /// A thousand for each gap, and one for each run.
    fn lists(&self) -> u64 {
        1000 * self.session.gap_count() as u64 + self.session.run_count() as u64
    }
}

fn live(turns: u64, gaps: u64, runs: u64) -> u64 {
    let mut host = Host::with_runs(gaps, runs);
    let now = host.base.at(1);
    for _ in 0..turns {
        host.application(now);
    }
    host.expected()
}

fn same(turns: u64, next: u64) -> u64 {
    let mut host = Host::new();
    let now = host.base.at(1);
    for _ in 0..turns {
        host.sequence(next, now);
    }
    host.expected()
}

fn send(turns: u64) -> u64 {
    let mut host = Host::new();
    let now = host.base.at(1);
    let mut last = host.send(now);
    for _ in 0..turns {
        last = host.send(now);
    }
    last + 1
}

fn round(turns: u64) -> u64 {
    let mut host = Host::new();
    let now = host.base.at(0);
    for i in 0..turns {
        let next = 2 * i + 2;
        host.sequence(next, now);
        let header = Retransmission {
            session_id: SessionId::from_bytes(ID),
            request_timestamp: Nanotime::from_nanos(i),
            next_seq_no: next - 1,
            count: 1,
        };
        host.peer(PeerMessage::Retransmission(black_box(&header)), now);
        host.application(now);
        host.sequence(next, now);
        host.application(now);
    }
    assert!(!host.session.has_pending_recovery(), "the batches match the requests");
    host.expected()
}

fn serve(turns: u64) -> u64 {
    let mut host = Host::new();
    let now = host.base.at(1);
    for _ in 0..20 {
        host.send(now);
    }
    let two = NonZeroU32::new(2).expect("not zero");
    let mut sum = 0;
    for i in 0..turns {
        let request = RetransmitRequest {
            session_id: SessionId::from_bytes(ID),
            timestamp: Nanotime::from_nanos(i % 1000),
            from_seq_no: 3,
            count: 2,
        };
        host.peer(PeerMessage::RetransmitRequest(black_box(&request)), now);
        let batch = host.session.retransmit(&mut host.core, &mut host.binding, two, black_box(now));
        host.empty();
        sum += u64::from(batch.is_ok()) * (i % 1000);
    }
    sum
}

fn idle(turns: u64) -> u64 {
    let mut host = Host::new();
    for i in 0..turns {
        let now = host.base.at(i % 1000);
        let _ =
            black_box(host.session.on_timeout(&mut host.core, &mut host.binding, black_box(now)));
        host.empty();
    }
    host.expected()
}

/// A record of a trace.
fn record(trace: &mut Vec<u8>, kind: u16, now: u64, stamp: u64, body: &[u8]) {
    let len = u16::try_from(20 + body.len()).expect("a short record");
    trace.extend(len.to_le_bytes());
    trace.extend(kind.to_le_bytes());
    trace.extend(now.to_le_bytes());
    trace.extend(stamp.to_le_bytes());
    trace.extend(body);
}

/// A trace of at most 65,536 bytes: 64 live messages, a Sequence, four sends, and a message lost, asked for, replayed and resumed, over
/// and over.
fn trace_of_a_day() -> Vec<u8> {
    let mut trace = Vec::new();
    let mut body = ID.to_vec();
    body.extend([1, 1]);
    body.extend(CONFIG.max_gap_len.to_le_bytes());
    body.extend(CONFIG.max_retransmit_count.to_le_bytes());
    body.extend(CONFIG.max_pending_gaps.to_le_bytes());
    body.extend(LONG.to_le_bytes());
    body.extend(u64::MAX.to_le_bytes());
    body.push(4);
    record(&mut trace, 1, 0, 0, &body);
    let mut body = Vec::new();
    for number in [LONG, LONG, 1] {
        body.extend(number.to_le_bytes());
    }
    record(&mut trace, 2, 0, 0, &body);
    let (mut now, mut next) = (1, 1u64);
    while trace.len() < 65_536 - 64 * 20 - 28 - 4 * 20 - 4 * 64 {
        for _ in 0..64 {
            record(&mut trace, 4, now, 0, &[]);
            next += 1;
            now += 1;
        }
        record(&mut trace, 32, now, 0, &next.to_le_bytes());
        for _ in 0..4 {
            record(&mut trace, 64, now, 0, &[]);
        }
        now += 1;
        record(&mut trace, 32, now, now, &(next + 1).to_le_bytes());
        let mut header = ID.to_vec();
        header.extend(now.to_le_bytes());
        header.extend(next.to_le_bytes());
        header.extend(1u32.to_le_bytes());
        record(&mut trace, 36, now, 0, &header);
        record(&mut trace, 4, now, 0, &[]);
        next += 1;
        record(&mut trace, 32, now, 0, &next.to_le_bytes());
        now += 1;
    }
    trace
}

fn number(record: &[u8], at: usize) -> u64 {
    u64::from_le_bytes(record[at..at + 8].try_into().expect("eight bytes"))
}

/// The records of [`trace_of_a_day`] run on the source, a line for each.
fn run_trace(trace: &[u8], out: &mut String) {
    out.clear();
    out.push_str("fixp-trace 1\n0 ok unbound 1 0 0\n1 ok established 1 0 0\n");
    let mut host = Host::new();
    let mut at = 0;
    let mut index = 0;
    while at < trace.len() {
        let len = usize::from(u16::from_le_bytes([trace[at], trace[at + 1]]));
        let record = &trace[at..at + len];
        at += len;
        index += 1;
        if index <= 2 {
            continue;
        }
        let now = host.base.at(number(record, 4));
        let _ = write!(out, "{} ", index - 1);
        let outputs = match u16::from_le_bytes([record[2], record[3]]) {
            4 => {
                let (delivery, _) =
                    host.session.on_application(&mut host.core, &mut host.binding, now);
                let _ = match delivery {
                    Delivery::Accept { seq: Some(seq), retransmitted: false } => {
                        write!(out, "accept:{}", seq.value())
                    }
                    Delivery::Accept { seq: Some(seq), retransmitted: true } => {
                        write!(out, "replay:{}", seq.value())
                    }
                    Delivery::Accept { seq: None, .. } => write!(out, "accept"),
                    Delivery::Discard => write!(out, "discard"),
                };
                host.empty()
            }
            64 => {
                let sent = host.session.send_application(&mut host.core, &mut host.binding, now);
                let _ = match sent {
                    Ok(Some(seq)) => write!(out, "sent:{}", seq.value()),
                    _ => write!(out, "sent"),
                };
                host.empty()
            }
            36 => {
                let header = Retransmission {
                    session_id: SessionId::from_bytes(ID),
                    request_timestamp: Nanotime::from_nanos(number(record, 36)),
                    next_seq_no: number(record, 44),
                    count: 1,
                };
                out.push_str("ok");
                host.peer(PeerMessage::Retransmission(&header), now)
            }
            _ => {
                out.push_str("ok");
                host.sequence(number(record, 20), now)
            }
        };
        let status = translate::status(host.binding.status()).word();
        let (expected, gaps) = (host.expected(), host.session.gap_count());
        let _ = writeln!(out, " {status} {expected} {gaps} {outputs}");
    }
    out.push_str("end missing 0\n");
}

/// The best of five runs, in nanoseconds for each turn.
fn best(turns: u64, mut run: impl FnMut()) -> f64 {
    (0..5)
        .map(|_| {
            let start = Instant::now();
            run();
            start.elapsed().as_nanos() as f64 / turns as f64
        })
        .fold(f64::INFINITY, f64::min)
}

fn line(name: &str, turns: u64, rust: impl Fn(u64) -> u64, port: impl Fn(u64) -> u64) {
    assert_eq!(rust(1000), port(1000), "{name}: the two do not agree");
    let of_rust = best(turns, || {
        black_box(rust(black_box(turns)));
    });
    let of_port = best(turns, || {
        black_box(port(black_box(turns)));
    });
    println!("| {name} | {of_rust:.1} | {of_port:.1} | {:.2} |", of_port / of_rust);
}

/// Prints the table.
pub fn run() {
    println!("| what | Rust ns | port ns | ratio |\n|---|---|---|---|");
    line("live numbering", 5_000_000, |n| live(n, 0, 0), |n| fixp_bench_live(n, 0, 0));
    line("an equal Sequence", 5_000_000, |n| same(n, 1), |n| fixp_bench_same(n, 1));
    line("a send", 5_000_000, send, |n| fixp_bench_send(n));
    line("a message lost and recovered (5 calls)", 1_000_000, round, |n| fixp_bench_round(n));
    line("a request served (2 calls)", 1_000_000, serve, |n| fixp_bench_serve(n));
    line("a timeout with nothing due", 5_000_000, idle, |n| fixp_bench_idle(n));
    trace_line();
    println!(
        "\n| live numbering, as history grows | Rust ns | port ns | ratio |\n|---|---|---|---|"
    );
    for before in [10, 10_000, 1_000_000] {
        let name = format!("after {before} calls");
        line_behind(&name, before, 1_000_000, &|n| live(n, 0, 0), &|n| fixp_bench_live(n, 0, 0));
    }
    for (gaps, runs) in LISTS {
        let lists = Host::with_runs(gaps, runs).lists();
        assert_eq!(lists, fixp_bench_lists(gaps, runs), "the two have the same lists");
        line_behind(
            &format!("with {} gaps and {} runs", lists / 1000, lists % 1000),
            10,
            1_000_000,
            &|n| live(n, gaps, runs),
            &|n| fixp_bench_live(n, gaps, runs),
        );
    }
    for (gaps, runs) in [(0, 0), (64, 0), (64, 256)] {
        let lists = Host::with_runs(gaps, runs).lists();
        line_behind(
            &format!("by the plain call, with {} gaps and {} runs", lists / 1000, lists % 1000),
            10,
            100_000,
            &|n| live(n, gaps, runs),
            &|n| fixp_bench_plain(n, gaps, runs),
        );
    }
}

/// The cost of a call behind so many others: so many calls more, and what making the state and those before took taken off.
fn line_behind(
    name: &str,
    before: u64,
    more: u64,
    rust: &dyn Fn(u64) -> u64,
    port: &dyn Fn(u64) -> u64,
) {
    assert_eq!(rust(1000), port(1000), "{name}: the two do not agree");
    let cost = |run: &dyn Fn(u64) -> u64| {
        let whole = best(more, || {
            black_box(run(black_box(before + more)));
        });
        let first = best(more, || {
            black_box(run(black_box(before)));
        });
        whole - first
    };
    let (of_rust, of_port) = (cost(rust), cost(port));
    println!("| {name} | {of_rust:.1} | {of_port:.1} | {:.2} |", of_port / of_rust);
}

fn trace_line() {
    let trace = trace_of_a_day();
    let mut lines = String::with_capacity(524_288);
    let mut out = vec![0; 524_288];
    // SAFETY: the two slices are those that the library's signature names.
    let port = |out: &mut [u8]| unsafe {
        fixp_bench_trace(trace.as_ptr(), trace.len(), out.as_mut_ptr(), out.len())
    };
    run_trace(&trace, &mut lines);
    let len = port(&mut out);
    assert_eq!(&out[..len], lines.as_bytes(), "the two print the same lines");
    let of_rust = best(100, || {
        for _ in 0..100 {
            run_trace(black_box(&trace), &mut lines);
        }
    });
    let of_port = best(100, || {
        for _ in 0..100 {
            black_box(port(&mut out));
        }
    });
    let records = lines.lines().count() - 2;
    println!(
        "| a trace of {} bytes, {records} records | {of_rust:.0} | {of_port:.0} | {:.2} |",
        trace.len(),
        of_port / of_rust
    );
}
