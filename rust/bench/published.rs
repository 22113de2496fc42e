
// ---- the benchmark's rows of machines (rust/bench) ----

/// The profile that the benchmark runs with: two messages, the silence trigger on.
type Timed = Machine<Prof<2, false, true, false, 0>>;

/// A row of equal machines.
pub struct Row(Vec<Timed>);

/// Machines in the state of a line, with the settings of another (replay format, without the first
/// word).
pub fn make_row(cfg: &str, state: &str, smaller: bool, n: usize) -> Row {
    let cfg = Cfg::from_line(cfg);
    let state = State::from_line(state);
    Row((0..n).map(|_| machine(&state, &cfg, smaller)).collect())
}

/// Poll each machine of the row once, by the published `step`; the number of outputs.
#[inline(never)]
pub fn poll_row(row: &mut Row, now: u64, workers: bool) -> usize {
    let mut told = 0;
    for m in &mut row.0 {
        let out = m.step(TestInstant(now), Input::Poll, &mut Shell::new(workers, 0).env());
        told += out.len();
    }
    told
}
