//! How many places repair tries in each byte plane (Ask 5 of the change requests): columns 1 to n, then checks 1 to 2t, up to the last
//! wrong one; 0 where none is wrong, n + 2t where no codeword is within t places, whatever the other planes have; 0 behind w planes and for
//! a refusal (refusals.rs). What to expect is known from how each word is made (words.rs), with t = 1 also from a list of all codewords
//! near. Beside it the answer, how many places are changed, and every byte of the output. The first difference ends the run.

#[path = "../../rust/src/archive.rs"]
mod archive;
#[path = "../../models/chance.rs"]
mod chance;
mod refusals;
#[path = "../../models/remainders.rs"]
mod remainders;
mod words;

use archive::Repaired;
use chance::Chance;
use refusals::refusals;
use std::collections::BTreeSet;
use words::{Code, Near, Plane};

const NONE: u32 = 256;
const MIXED: u32 = 30_000;
const FILL: u8 = 0xa5;

/// The values of the planes, one after the other.
fn glued(planes: &[&[u8]]) -> Vec<u8> {
    (0..planes[0].len())
        .flat_map(|place| planes.iter().map(move |plane| plane[place]))
        .collect()
}

/// Repairs the word that the planes make, and compares all that comes back with what is known of them; hands back the answer.
fn compare(code: &Code, planes: &[Plane], chance: &mut Chance) -> u32 {
    let (n, t, w) = (code.n, code.t, planes.len());
    let received: Vec<&[u8]> = planes.iter().map(|plane| &plane.received[..]).collect();
    let received = glued(&received);
    let (vector, checks) = received.split_at(n * w);

    let mut tried = [0; 8];
    for (tried, plane) in tried.iter_mut().zip(planes) {
        *tried = plane.tried() as u8;
    }
    let room = n * w + chance.below(3) as usize;
    let mut expected = vec![FILL; room];
    let near: Vec<&Near> = planes
        .iter()
        .filter_map(|plane| plane.near.as_ref())
        .collect();
    let (answer, changed) = if near.len() == w {
        let values: Vec<&[u8]> = near.iter().map(|near| &near.codeword[..n]).collect();
        expected[..n * w].copy_from_slice(&glued(&values));
        let places: BTreeSet<usize> = near.iter().flat_map(|near| near.wrong.clone()).collect();
        (0, places.len() as u32)
    } else {
        (NONE, 0)
    };

    let mut output = vec![FILL; room];
    let repaired = archive::repair(n as u32, t as u32, w as u32, vector, checks, &mut output);
    let got = (repaired.tried, repaired.answer, repaired.changed, output);
    let known = (tried, answer, changed, expected);
    if got != known {
        eprintln!("tried: n {n}, t {t}, w {w}, vector {vector:?}, checks {checks:?}");
        for (p, plane) in planes.iter().enumerate() {
            match &plane.near {
                Some(near) => eprintln!("plane {p}: wrong at places {:?}", near.wrong),
                None => eprintln!("plane {p}: no codeword near"),
            }
        }
        eprintln!("the places tried, the answer, the places changed, the output:");
        eprintln!("known   {known:?}");
        eprintln!("library {got:?}");
        std::process::exit(1);
    }
    answer
}

/// Every code with checks.
fn codes() -> impl Iterator<Item = Code> {
    (4..=32).flat_map(|n| (1..=(n - 1) / 3).map(move |t| Code::new(n, t)))
}

/// The document's own words for n = 4, t = 1, with what is wrong in them: [0, 136] belong to [241, 86, 129, 35], [22, 61] to
/// [241, 49, 35, 35], [39, 78] to the vector itself, and nothing is near [22, 77].
fn worked() {
    let worked = |w: u32, checks: &[u8]| {
        let vector: Vec<u8> = [241, 86, 35, 35]
            .iter()
            .flat_map(|&byte| vec![byte; w as usize])
            .collect();
        let Repaired {
            answer,
            changed,
            tried,
        } = archive::repair(4, 1, w, &vector, checks, &mut [0; 32]);
        (answer, changed, tried)
    };
    assert_eq!(worked(1, &[39, 78]), (0, 0, [0; 8]));
    assert_eq!(worked(1, &[22, 61]), (0, 1, [2, 0, 0, 0, 0, 0, 0, 0]));
    assert_eq!(worked(1, &[0, 136]), (0, 1, [3, 0, 0, 0, 0, 0, 0, 0]));
    assert_eq!(worked(1, &[38, 78]), (0, 1, [5, 0, 0, 0, 0, 0, 0, 0]));
    assert_eq!(worked(1, &[39, 79]), (0, 1, [6, 0, 0, 0, 0, 0, 0, 0]));
    assert_eq!(worked(1, &[22, 77]), (NONE, 0, [6, 0, 0, 0, 0, 0, 0, 0]));
    assert_eq!(
        worked(3, &[22, 0, 39, 61, 136, 78]),
        (0, 2, [2, 3, 0, 0, 0, 0, 0, 0])
    );
    assert_eq!(
        worked(3, &[0, 22, 39, 136, 77, 78]),
        (NONE, 0, [3, 6, 0, 0, 0, 0, 0, 0])
    );
    assert_eq!(
        worked(3, &[22, 38, 22, 77, 78, 61]),
        (NONE, 0, [6, 5, 2, 0, 0, 0, 0, 0])
    );
}

/// Each single place of each plane wrong by itself, over every n, t and w.
fn each_place(chance: &mut Chance) -> u32 {
    let mut words = 0;
    for code in codes() {
        let whole: Vec<Plane> = (0..8)
            .map(|_| code.changed(&code.any_codeword(chance), &[], chance))
            .collect();
        for w in 1..=8 {
            compare(&code, &whole[..w], chance);
            for (p, place) in (0..w).flat_map(|p| (1..=code.places()).map(move |place| (p, place)))
            {
                let mut planes = whole[..w].to_vec();
                planes[p] = code.changed(&whole[p].received, &[place], chance);
                assert_eq!(compare(&code, &planes, chance), 0);
                words += 1;
            }
        }
    }
    words
}

/// Each pair of places, for every t from 2 on with its smallest n, and for the greatest code: in a plane by itself, and in one of eight and
/// the other way round in the next, with others wrong in the rest.
fn each_pair(chance: &mut Chance) -> usize {
    let mut words = 0;
    for (n, t) in (2..=10).map(|t| (3 * t + 1, t)).chain([(32, 10)]) {
        let code = Code::new(n, t);
        let mut pairs = 0;
        for (first, last) in
            (2..=code.places()).flat_map(|last| (1..last).map(move |first| (first, last)))
        {
            for w in [1, 8] {
                let mut planes: Vec<Plane> = (0..w).map(|_| near(&code, chance)).collect();
                for (p, wrong) in [(pairs, [first, last]), (pairs + 1, [last, first])] {
                    planes[p % w] = code.changed(&code.any_codeword(chance), &wrong, chance);
                }
                assert_eq!(compare(&code, &planes, chance), 0);
                words += 1;
            }
            pairs += 1;
        }
        assert_eq!(pairs, code.places() * (code.places() - 1) / 2);
    }
    words
}

/// A plane with up to t places wrong.
fn near(code: &Code, chance: &mut Chance) -> Plane {
    let count = chance.below(code.t as u64 + 1) as usize;
    let wrong = code.some_places(count, chance);
    code.changed(&code.any_codeword(chance), &wrong, chance)
}

/// A plane whose last wrong place is this one, with fewer than t others wrong before it, or with none wrong where it is 0.
fn ending(code: &Code, last: usize, chance: &mut Chance) -> Plane {
    let mut wrong: Vec<usize> = (1..last).collect();
    chance.shuffle(&mut wrong);
    wrong.truncate(chance.below(code.t as u64) as usize);
    wrong.extend((last > 0).then_some(last));
    code.changed(&code.any_codeword(chance), &wrong, chance)
}

/// Beside a plane with no codeword near, before or behind it: each place the last wrong one of each plane, and none wrong, in the smallest
/// and in the greatest words of eight planes.
fn beside_none(chance: &mut Chance) -> usize {
    let mut words = 0;
    for (n, t) in [(4, 1), (32, 10)] {
        let code = Code::new(n, t);
        let mut reached = BTreeSet::new();
        for (none, p) in (0..8).flat_map(|none| (0..8).map(move |p| (none, p))) {
            for last in (0..=code.places()).filter(|_| p != none) {
                let mut planes: Vec<Plane> = (0..8).map(|_| near(&code, chance)).collect();
                planes[none] = code.far(chance);
                planes[p] = ending(&code, last, chance);
                assert_eq!(compare(&code, &planes, chance), NONE);
                reached.insert((none, p, planes[p].tried()));
            }
        }
        assert_eq!(reached.len(), 8 * 7 * (code.places() + 1));
        words += reached.len();
    }
    words
}

/// Planes of all kinds side by side, in a third of the words with all of them near. Small words are searched as well.
fn mixed(chance: &mut Chance) -> (u32, u32, u32) {
    let (mut repaired, mut some_near, mut searched) = (0, 0, 0);
    let codes: Vec<Code> = codes().collect();
    for _ in 0..MIXED {
        let code = &codes[chance.below(codes.len() as u64) as usize];
        let (all_near, w) = (chance.one_in(3), 1 + chance.below(8));
        let planes: Vec<Plane> = (0..w)
            .map(|_| match chance.below(if all_near { 3 } else { 4 }) {
                0 | 1 => near(code, chance),
                2 => code.nearer_another(chance),
                _ => code.far(chance),
            })
            .collect();
        if code.n <= 5 {
            planes.iter().for_each(|plane| code.assert_by_search(plane));
            searched += planes.len() as u32;
        }
        let answer = compare(code, &planes, chance);
        repaired += u32::from(answer == 0);
        let beside = planes
            .iter()
            .any(|plane| plane.near.is_some() && plane.tried() > 0);
        some_near += u32::from(answer == NONE && beside);
    }
    (repaired, some_near, searched)
}

/// For t = 1 and a vector, by every pair of checks: the plane with what is near it, from a list of all codewords within one place.
fn by_pairs(code: &Code, chance: &mut Chance) -> Vec<Plane> {
    let own = code.any_codeword(chance);
    let (vector, checks) = own.split_at(code.n);
    let mut planes: Vec<Plane> = (0..=u16::MAX)
        .map(|pair| Plane {
            received: [vector, &pair.to_be_bytes()].concat(),
            near: None,
        })
        .collect();
    let mut put = |pair: [u8; 2], codeword: &[u8], wrong: Vec<usize>| {
        let plane = &mut planes[usize::from(u16::from_be_bytes(pair))];
        let codeword = codeword.to_vec();
        let before = plane.near.replace(Near { codeword, wrong });
        assert!(before.is_none(), "two codewords are near");
    };
    put([checks[0], checks[1]], &own, vec![]);
    for change in 1..=255 {
        put([checks[0] ^ change, checks[1]], &own, vec![code.n + 1]);
        put([checks[0], checks[1] ^ change], &own, vec![code.n + 2]);
        for k in 0..code.n {
            let mut values = vector.to_vec();
            values[k] ^= change;
            let other = code.codeword(&values);
            put([other[code.n], other[code.n + 1]], &other, vec![k + 1]);
        }
    }
    planes
}

/// Every pair of check bytes there is, for each n with t = 1, eight planes in a word; with n = 4 each in a word by itself too.
fn every_pair_of_checks(chance: &mut Chance) -> (u32, u32) {
    let (mut pairs, mut near) = (0, 0);
    for n in 4..=32 {
        let code = Code::new(n, 1);
        let mut planes = by_pairs(&code, chance);
        if n == 4 {
            for plane in &planes {
                compare(&code, std::slice::from_ref(plane), chance);
            }
        }
        chance.shuffle(&mut planes);
        for word in planes.chunks(8) {
            compare(&code, word, chance);
        }
        pairs += planes.len() as u32;
        near += planes.iter().filter(|plane| plane.near.is_some()).count() as u32;
    }
    (pairs, near)
}

/// Without checks every vector is a codeword.
fn no_checks(chance: &mut Chance) {
    for n in 1..=32 {
        let code = Code::new(n, 0);
        for w in 1..=8 {
            let planes: Vec<Plane> = (0..w)
                .map(|_| code.changed(&code.any_codeword(chance), &[], chance))
                .collect();
            assert_eq!(compare(&code, &planes, chance), 0);
        }
    }
}

fn main() {
    let mut chance = Chance::new(15);
    worked();
    let places = each_place(&mut chance);
    let two = each_pair(&mut chance);
    let beside = beside_none(&mut chance);
    let (repaired, some_near, searched) = mixed(&mut chance);
    let (pairs, near) = every_pair_of_checks(&mut chance);
    no_checks(&mut chance);
    let refused = refusals(&mut chance);
    assert!(repaired > MIXED / 3 && some_near > MIXED / 4 && searched > 100);
    println!(
        "tried: each plane up to its last wrong place, as made: {places} words with one place wrong, over every n, t and w; {two} with two; \
         {beside} with each place beside none near; {MIXED} of mixed planes, {repaired} repaired, {some_near} with none near beside \
         something wrong, {searched} of these planes searched too; {pairs} pairs of checks, {near} with a codeword near; and {refused} \
         refusals, of which nothing is told"
    );
}
