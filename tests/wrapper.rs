//! The safe crate: an exchange of four good columns, how far off senders were as a record has it, whose frames were refused, the level
//! where one column is silent, repair with the places that it changed and tried, every refusal it can name, the size of a frame against
//! what `send` writes, and the texts, which are those of the C header.

use sajowemi::{
    Beliefs, Column, LONGEST_FRAME, Level, Refusal, Repair, Settings, Told, archive, check_values,
    repair,
};

const FOUR: Settings = Settings { n: 4, t: 1, w: 1 };
const NUMBERS: [u32; 20] = [
    1, 2, 3, 4, 5, 6, 7, 8, 9, 10, 11, 12, 13, 14, 15, 16, 17, 18, 21, 22,
];

/// Each column takes the frames of the others, is looked at after each with the sender and the frame, and closes.
fn one_round(group: &mut [Column], look: impl Fn(&mut Column, u32, &[u8])) {
    let sent = group.to_vec();
    for column in group {
        let own = column.number();
        for sender in sent.iter().filter(|sender| sender.number() != own) {
            let mut buffer = [0; LONGEST_FRAME];
            let frame = sender.send(&mut buffer).unwrap();
            column.take(sender.number(), frame).unwrap();
            look(column, sender.number(), frame);
        }
        column.close().unwrap();
    }
}

fn exchange() {
    let heights = [241u8, 86, 35, 77];
    let mut group: Vec<Column> = (1..=4)
        .map(|k| Column::open(FOUR, k, 7, &heights[k as usize - 1..][..1]).unwrap())
        .collect();
    for round in 1..=3 {
        one_round(&mut group, |column, sender, frame| {
            assert_eq!(column.round(), round);
            assert_eq!(frame.len(), if round == 1 { 5 } else { 6 });
            assert_eq!(column.take(sender, frame), Err(Refusal::Repeated));
        });
    }
    for column in &group {
        let beliefs = column.result().unwrap();
        assert!(
            beliefs.all().eq(heights
                .iter()
                .map(|height| (core::slice::from_ref(height), 2)))
        );
        assert_eq!((beliefs.of(0), beliefs.of(5)), (None, None));
        assert_eq!(column.refused_in_all(), 9);
        for k in 1..=4 {
            let repeated = if k == column.number() { 0 } else { 3 };
            assert_eq!(column.refused(k), Some(repeated));
            let agreeing = Some(Told::Changed(0));
            assert_eq!(
                (beliefs.told_two(k), beliefs.told_three(k)),
                (agreeing, agreeing)
            );
        }
        assert_eq!(
            Column::from_record(*column.record()).close(),
            Err(Refusal::NoOpenRound)
        );
    }
}

/// Rounds two and three apart, each sender at its number, the marks by name, and nobody beside the group.
fn told() {
    let mut alone = Column::open(FOUR, 2, 7, &[9]).unwrap();
    for _ in 1..=3 {
        alone.close().unwrap();
    }
    let told_of = |beliefs: Beliefs| {
        [0, 1, 2, 3, 4, 5, u32::MAX].map(|k| (beliefs.told_two(k), beliefs.told_three(k)))
    };
    let missing = (Some(Told::Missing), Some(Told::Missing));
    let own = (Some(Told::Changed(0)), Some(Told::Changed(0)));
    let nobody = (None, None);
    assert_eq!(
        told_of(alone.result().unwrap()),
        [nobody, missing, own, missing, missing, nobody, nobody]
    );
    let mut record = *alone.record();
    record.found.told_two[..5].copy_from_slice(&[3, 0, 254, 255, 7]);
    record.found.told_three[..5].copy_from_slice(&[255, 1, 52, 253, 7]);
    assert_eq!(
        told_of(Column::from_record(record).result().unwrap()),
        [
            nobody,
            (Some(Told::Changed(3)), Some(Told::Nothing)),
            (Some(Told::Changed(0)), Some(Told::Changed(1))),
            (Some(Told::Missing), Some(Told::Changed(52))),
            (Some(Told::Nothing), Some(Told::Changed(253))),
            nobody,
            nobody
        ]
    );
}

/// How many frames of columns 0, 4, 5, 32, 33 and the greatest number a column with that record refused.
fn refused_of(record: &archive::Column) -> [Option<u32>; 6] {
    let column = Column::from_record(*record);
    [0, 4, 5, 32, 33, u32::MAX].map(|k| column.refused(k))
}

/// Each sender's count at its number and nobody's beside the group, also where a record has any n. Closing keeps all of them. The sum has
/// those behind n too, and where all are at their top it is more than 32 bits hold.
fn refused() {
    let mut record = *Column::open(FOUR, 2, 7, &[9]).unwrap().record();
    assert_eq!(refused_of(&record), [None, Some(0), None, None, None, None]);
    record.refused = core::array::from_fn(|k| 101 + k as u32);
    let mut column = Column::from_record(record);
    for _ in 1..=3 {
        column.close().unwrap();
        assert_eq!(
            refused_of(column.record()),
            [None, Some(104), None, None, None, None]
        );
        assert_eq!(column.refused_in_all(), (101..=132).sum());
    }
    for n in [33, 1 << 31, u32::MAX] {
        record.who.n = n;
        assert_eq!(
            refused_of(&record),
            [None, Some(104), Some(105), Some(132), None, None]
        );
    }
    record.who.n = 0;
    assert_eq!(refused_of(&record), [None; 6]);
    record.refused = [u32::MAX; archive::MOST_COLUMNS];
    assert_eq!(
        Column::from_record(record).refused_in_all(),
        32 * 4_294_967_295
    );
}

fn level() {
    let mut alone =
        Column::open(Settings { n: 1, t: 0, w: 4 }, 1, 7, &1004i32.to_be_bytes()).unwrap();
    assert_eq!(alone.level(), Err(Refusal::NotFinished));
    for _ in 1..=3 {
        alone.close().unwrap();
    }
    let (level, correction) = (1004, 0);
    assert_eq!(alone.level(), Ok(Level { level, correction }));
    let mut short = Column::open(Settings { n: 1, t: 0, w: 1 }, 1, 7, &[4]).unwrap();
    for _ in 1..=3 {
        short.close().unwrap();
    }
    assert_eq!(short.level(), Err(Refusal::LevelValueSize));
    assert_eq!(
        level_by_hand(&alone, |record| record.found.confidences[0] = 0),
        Err(Refusal::LevelTooManyBlank)
    );
}

/// The level of a column whose record was changed by hand.
fn level_by_hand(column: &Column, change: impl Fn(&mut archive::Column)) -> Result<Level, Refusal> {
    let mut record = *column.record();
    change(&mut record);
    Column::from_record(record).level()
}

/// Three heights and a fourth column that is silent: nothing is dropped. Then by hand: another one blank; one at confidence 1, which is not
/// blank; a fifth column, blank too beside the three heights; the fourth far up, without a say while blank, and dropped with the lowest.
fn level_beside_a_silent_column() {
    let settings = Settings { n: 4, t: 1, w: 4 };
    let mut group = [(1, 1000i32), (2, 1004), (3, 1010)]
        .map(|(k, height)| Column::open(settings, k, 7, &height.to_be_bytes()).unwrap());
    for _ in 1..=3 {
        one_round(&mut group, |_, _, _| ());
    }
    let levels = |level: i64, correction: i64| Ok(Level { level, correction });
    assert_eq!(
        group.map(|column| column.level()),
        [levels(1005, 5), levels(1005, 1), levels(1005, -5)]
    );
    let by_hand = |change: &dyn Fn(&mut archive::Column)| level_by_hand(&group[0], change);
    let too_many = Err(Refusal::LevelTooManyBlank);
    for k in 0..3 {
        assert_eq!(by_hand(&|record| record.found.confidences[k] = 0), too_many);
        assert_eq!(
            by_hand(&|record| record.found.confidences[k] = 1),
            levels(1005, 5)
        );
    }
    assert_eq!(by_hand(&|record| record.who.n = 5), too_many);
    for (confidence, expected) in [(0, levels(1005, 5)), (1, levels(1007, 7))] {
        let far_up = |record: &mut archive::Column| {
            record.found.values[12..16].copy_from_slice(&9999i32.to_be_bytes());
            record.found.confidences[3] = confidence;
        };
        assert_eq!(by_hand(&far_up), expected);
    }
}

/// How many places were changed, None where nothing is near; how many were tried in each plane; and the output with a byte behind it.
fn repaired(
    settings: Settings,
    vector: &[u8],
    checks: &[u8],
) -> Result<(Option<u32>, Vec<u8>, Vec<u8>), Refusal> {
    let mut output = vec![9; vector.len() + 1];
    let (changed, tried) = match repair(settings, vector, checks, &mut output)? {
        Repair::Repaired { changed, tried } => (Some(changed), tried),
        Repair::Nothing { tried } => (None, tried),
    };
    Ok((changed, tried.planes().to_vec(), output))
}

fn code() {
    let vector = [241, 86, 35, 35];
    let mut checks = [9; 3];
    assert_eq!(check_values(FOUR, &vector, &mut checks), Ok(()));
    assert_eq!(checks, [39, 78, 9]);
    assert_eq!(
        repaired(FOUR, &vector, &[22, 77]),
        Ok((None, vec![6], vec![9; 5]))
    );
    assert_eq!(
        repaired(FOUR, &vector, &[0, 136]),
        Ok((Some(1), vec![3], vec![241, 86, 129, 35, 9]))
    );
    assert_eq!(
        repaired(FOUR, &vector, &[39, 78]),
        Ok((Some(0), vec![0], vec![241, 86, 35, 35, 9]))
    );
    assert_eq!(repaired(FOUR, &vector, &[0]), Err(Refusal::CodeLength));
    let (two, vector) = (
        Settings { w: 2, ..FOUR },
        [241, 241, 86, 86, 35, 35, 35, 35],
    );
    assert_eq!(
        repaired(two, &vector, &[0, 22, 136, 61]),
        Ok((
            Some(2),
            vec![3, 2],
            vec![241, 241, 86, 49, 129, 35, 35, 35, 9]
        ))
    );
    assert_eq!(
        repaired(two, &vector, &[22, 0, 77, 136]),
        Ok((None, vec![6, 3], vec![9; 9]))
    );
    assert_eq!(
        check_values(Settings { n: 3, t: 1, w: 1 }, &vector, &mut checks),
        Err(Refusal::TooFewColumns)
    );
}

fn opening_refusal(n: u32, t: u32, w: u32, number: u32, own: &[u8]) -> u32 {
    Column::open(Settings { n, t, w }, number, 7, own)
        .err()
        .map_or(0, Refusal::number)
}

fn refusals() {
    let refused = [
        opening_refusal(33, 0, 1, 1, &[1]),
        opening_refusal(3, 1, 1, 1, &[1]),
        opening_refusal(4, 1, 9, 1, &[1]),
        opening_refusal(4, 1, 1, 5, &[1]),
        opening_refusal(4, 1, 1, 4, &[1, 2]),
        opening_refusal(4, 1, 1, 4, &[0]),
    ];
    assert_eq!(refused, [1, 2, 3, 4, 5, 6]);
    let mut column = Column::open(FOUR, 1, 7, &[1]).unwrap();
    let mut frame_refusal =
        |slot: u32, frame: &[u8]| column.take(slot, frame).err().map_or(0, Refusal::number);
    assert_eq!(frame_refusal(1, &[]), 8);
    assert_eq!(frame_refusal(2, &[]), 9);
    assert_eq!(frame_refusal(2, &[1, 2, 0, 7, 5]), 10);
    assert_eq!(frame_refusal(2, &[17, 2, 0, 7]), 11);
    assert_eq!(frame_refusal(2, &[17, 3, 0, 7, 5]), 12);
    assert_eq!(frame_refusal(2, &[17, 2, 7, 0, 5]), 13);
    assert_eq!(frame_refusal(2, &[51, 2, 0, 7, 5, 5]), 14);
    assert_eq!(frame_refusal(2, &[34, 2, 0, 7, 5, 5]), 0);
    assert_eq!(frame_refusal(2, &[34, 2, 0, 7, 6, 6]), 15);
    let counts = [1, 2, 3, 4].map(|k| column.refused(k));
    assert_eq!(counts, [Some(0), Some(7), Some(0), Some(0)]);
    assert_eq!(column.refused_in_all(), 7);
    assert_eq!(column.send(&mut [0; 4]), Err(Refusal::BufferTooShort));
    assert_eq!(column.result().err(), Some(Refusal::NotFinished));
}

/// How many bytes `send` writes of a record, told by two buffers that differ in every byte before.
fn written(record: &archive::Column) -> usize {
    let (mut zeros, mut ones) = ([0; 200], [255; 200]);
    archive::send(record, &mut zeros);
    archive::send(record, &mut ones);
    zeros
        .iter()
        .zip(&ones)
        .take_while(|(low, high)| low == high)
        .count()
}

fn same_frame_size(record: &archive::Column) {
    let archive::Identity {
        n, t, w, number, ..
    } = record.who;
    assert_eq!(
        Column::from_record(*record).frame_size(),
        written(record),
        "n {n}, t {t}, w {w}, number {number}, round {}",
        record.round
    );
}

/// The size of a frame is what `send` writes, of every settings and round, and of records with one number damaged or a blank value.
fn frame_sizes() -> u32 {
    let mut compared = 0;
    let damages = [0, 1, 3, 9, 11, 33, 1 << 16, u32::MAX];
    for (n, t, w) in (1..=32)
        .flat_map(|n| (0..=(n - 1) / 3).map(move |t| (n, t)))
        .flat_map(|(n, t)| (1..=8).map(move |w| (n, t, w)))
    {
        let mut column = Column::open(Settings { n, t, w }, n, 7, &[1; 8][..w as usize]).unwrap();
        for round in 1..=4 {
            let record = *column.record();
            assert_eq!(written(&record) == 0, round == 4);
            same_frame_size(&record);
            for (field, damage) in (0..5).flat_map(|field| damages.map(|damage| (field, damage))) {
                let mut damaged = record;
                let who = &mut damaged.who;
                *[
                    &mut who.n,
                    &mut who.t,
                    &mut who.w,
                    &mut who.number,
                    &mut damaged.round,
                ][field] = damage;
                same_frame_size(&damaged);
                compared += 1;
            }
            let mut blank = record;
            blank.who.own = [0; archive::VALUE_ROOM];
            same_frame_size(&blank);
            compared += 2;
            let _ = column.close();
        }
    }
    compared
}

fn texts() {
    let header = std::fs::read_to_string("include/sajowemi.h").unwrap();
    for number in 0..=300 {
        let refusal = Refusal::from_number(number);
        assert_eq!(
            refusal.map(Refusal::number),
            Some(number).filter(|number| NUMBERS.contains(number))
        );
        if let Some(refusal) = refusal {
            assert!(
                header.contains(&format!("return \"{refusal}\";")),
                "{refusal}"
            );
            assert!(header.contains(&format!(" = {number},\n")), "{number}");
        }
    }
}

fn main() {
    exchange();
    told();
    refused();
    level();
    level_beside_a_silent_column();
    code();
    refusals();
    let compared = frame_sizes();
    texts();
    println!(
        "wrapper: the safe crate runs an exchange, has the {} refusals of the header, and tells the size of {compared} frames as sent",
        NUMBERS.len()
    );
}
