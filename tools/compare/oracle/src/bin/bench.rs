//! The command line of the benchmark.

#[cfg(bench)]
fn main() {
    oracle::bench::run();
}

#[cfg(not(bench))]
fn main() {
    eprintln!("bench: built without the port's library; use tools/bench/bench");
    std::process::exit(2);
}
