//! The compiled calls against the table of refusals: every frame length, command and point of the exchange, the counts of refused frames,
//! settings out of range, buffers of every length, damaged records. Answers, whole records and all lent bytes are compared; the first
//! difference ends the run.

#[path = "../../rust/src/archive.rs"]
mod archive;
#[path = "../../models/chance.rs"]
mod chance;
mod compare;
mod counts;
mod damage;
#[path = "../../models/division.rs"]
mod division;
#[path = "../../models/frames.rs"]
mod frames;
mod kept;
#[path = "../../models/linear.rs"]
mod linear;
#[path = "../shared/record.rs"]
mod record;
#[path = "../../models/refusals.rs"]
mod refusals;
mod sending;
mod settings;
mod taking;

const RUN: u16 = 0x1234;

/// n, t and w of the groups that exchange.
#[rustfmt::skip]
const GROUPS: [(u32, u32, u32); 6] = [(4, 1, 1), (31, 10, 8), (1, 0, 1), (32, 10, 8), (7, 2, 3), (2, 0, 4)];

fn main() {
    let every: u64 = std::thread::scope(|scope| {
        let threads = GROUPS.map(|(n, t, w)| scope.spawn(move || taking::all_frames(n, t, w)));
        threads.map(|thread| thread.join().unwrap()).iter().sum()
    });
    let named = taking::longest_frame() + taking::early_frames();
    let buffers: u64 = GROUPS
        .iter()
        .map(|&(n, t, w)| sending::all_buffers(n, t, w))
        .sum();
    let settings = settings::all_settings();
    let damaged = damage::damaged_records(100_000);
    println!(
        "hostile_frames: as the table says: {every} frames, {named} named cases, {buffers} buffers, \
         {settings} calls over settings, {damaged} damaged records"
    );
    refused_counts();
}

/// The counts of refused frames by themselves.
fn refused_counts() {
    const LISTS: u64 = 3000;
    let mut frames = counts::Frames::default();
    counts::every_refusal(&mut frames);
    counts::one_at_top(&mut frames);
    let (uncounted, closings) = (kept::uncounted(), kept::closings());
    let (rose, past) = counts::lists(LISTS);
    let counts::Frames {
        counted,
        at_top,
        taken,
    } = frames;
    println!(
        "hostile_frames: counts by slot: {counted} frames raise their slot's, {at_top} leave it at its top, {taken} are taken and \
         {uncounted} refused 1 to 8 with all as they were, and {closings} closings; in {LISTS} lists of calls {rose} counts rise, and \
         {past} would go past their top"
    );
}
