//! The exchange of a whole group: what each good column holds after each round.

use crate::group::Group;
use crate::linear;
use crate::remainders::{Coder, Value};
use std::collections::BTreeMap;

pub type Vector = Vec<Value>;
/// Something of each good column.
pub type OfGood<T> = BTreeMap<usize, T>;

/// V: the own value, the values of good columns, and what bad ones sent; blank where nothing came.
pub fn heard(group: &Group) -> OfGood<Vector> {
    let value = |to, from| match (group.own.get(&from), group.sent.get(&(1, from, to))) {
        (Some(own), _) => own.clone(),
        (None, Some(sent)) => sent[0].clone(),
        (None, None) => vec![0; group.w],
    };
    let vector = |&to: &usize| (to, (1..=group.n).map(|from| value(to, from)).collect());
    group.own.keys().map(vector).collect()
}

/// Y: what n - t rows or more of round two's table agree on.
pub fn agreed(group: &Group, coder: &Coder, heard: &OfGood<Vector>) -> OfGood<Vector> {
    let agreed_at = |table: &[Vector], k: usize| {
        let found = |value: &&Value| times_found(table, k, value) >= group.n - group.t;
        let mut column = table.iter().map(|row| &row[k]);
        column.find(found).cloned().unwrap_or(vec![0; group.w])
    };
    let vector = |table: &Vec<Vector>| (0..group.n).map(|k| agreed_at(table, k)).collect();
    let tables = tables(group, coder, 2, heard);
    tables
        .iter()
        .map(|(&i, table)| (i, vector(table)))
        .collect()
}

/// Values and confidences, by round three's table.
pub fn held(group: &Group, coder: &Coder, agreed: &OfGood<Vector>) -> OfGood<Vec<(Value, u8)>> {
    let held_at = |table: &[Vector], k: usize| {
        let mut best = (vec![0; group.w], 0);
        for value in table
            .iter()
            .map(|row| &row[k])
            .filter(|value| !is_blank(value))
        {
            let found = times_found(table, k, value);
            if found > best.1 || found == best.1 && *value < best.0 {
                best = (value.clone(), found);
            }
        }
        match best {
            (value, found) if found >= 2 * group.t + 1 => (value, 2),
            (value, found) if found >= group.t + 1 => (value, 1),
            _ => (vec![0; group.w], 0),
        }
    };
    let values = |table: &Vec<Vector>| (0..group.n).map(|k| held_at(table, k)).collect();
    let tables = tables(group, coder, 3, agreed);
    tables
        .iter()
        .map(|(&i, table)| (i, values(table)))
        .collect()
}

pub fn is_blank(value: &[u8]) -> bool {
    value.iter().all(|&byte| byte == 0)
}

fn times_found(table: &[Vector], k: usize, value: &Value) -> usize {
    table.iter().filter(|row| row[k] == *value).count()
}

/// The table of a round for each good column: a row for each sender.
fn tables(group: &Group, coder: &Coder, round: u8, own: &OfGood<Vector>) -> OfGood<Vec<Vector>> {
    let mut checks: OfGood<Vec<Value>> = BTreeMap::new();
    for (&i, vector) in own {
        checks.insert(i, coder.checks(vector));
    }
    let row = |to: usize, from: usize| {
        let blanks = vec![vec![0; group.w]; group.n];
        if from == to {
            return own[&to].clone();
        }
        match checks.get(&from).or(group.sent.get(&(round, from, to))) {
            // the vector itself is the codeword, and no other is near
            Some(sent) if *sent == checks[&to] => own[&to].clone(),
            Some(sent) => {
                repaired(group, coder, &own[&to], sent).map_or(blanks, |(vector, _)| vector)
            }
            None => blanks,
        }
    };
    let table = |&to: &usize| (to, (1..=group.n).map(|from| row(to, from)).collect());
    own.keys().map(table).collect()
}

/// The vector of the one codeword within t places of every plane, and how many places it changes in some plane. The equations find both,
/// and the last place changed in each plane; here they are looked at again.
pub fn repaired(
    group: &Group,
    coder: &Coder,
    own: &[Value],
    checks: &[Value],
) -> Option<(Vector, usize)> {
    let [n, t, w] = [group.n, group.t, group.w].map(|setting| setting as u32);
    let mut bytes = vec![0; group.n * group.w];
    let (answer, counted, tried) =
        linear::repair(n, t, w, &own.concat(), &checks.concat(), &mut bytes);
    if answer != 0 {
        return None;
    }
    let vector: Vector = bytes.chunks(group.w).map(<[u8]>::to_vec).collect();
    let found = [vector.as_slice(), &coder.checks(&vector)].concat();
    let given = [own, checks].concat();
    for p in 0..group.w {
        let wrong: Vec<usize> = (0..given.len())
            .filter(|&place| found[place][p] != given[place][p])
            .collect();
        assert!(
            wrong.len() <= group.t,
            "repaired in {} places: {own:?} by {checks:?}",
            wrong.len()
        );
        assert_eq!(
            usize::from(tried[p]),
            wrong.last().map_or(0, |place| place + 1),
            "the last place changed in plane {p}: {own:?} by {checks:?}"
        );
    }
    let changed = found.iter().zip(&given).filter(|(a, b)| a != b).count();
    assert_eq!(
        counted as usize, changed,
        "places counted and changed: {own:?} by {checks:?}"
    );
    Some((vector, changed))
}

#[cfg(test)]
mod tests {
    use super::*;
    use crate::draw::Draw;
    use crate::group::read;

    fn group(n: usize, t: usize) -> Group {
        let (own, sent) = (BTreeMap::new(), BTreeMap::new());
        Group {
            n,
            t,
            w: 1,
            own,
            sent,
        }
    }

    fn four(own: [u8; 4], checks: [u8; 2]) -> Option<(Vec<u8>, usize)> {
        let (own, checks) = (own.map(|b| vec![b]), checks.map(|b| vec![b]));
        let repaired = repaired(&group(4, 1), &Coder::new(4, 2), &own, &checks);
        repaired.map(|(vector, changed)| (vector.concat(), changed))
    }

    #[test]
    fn worked_repairs() {
        let own = [241, 86, 35, 35];
        assert_eq!(four(own, [39, 78]), Some((own.to_vec(), 0)));
        assert_eq!(four(own, [39, 79]), Some((own.to_vec(), 1)));
        assert_eq!(four(own, [0, 136]), Some((vec![241, 86, 129, 35], 1)));
        assert_eq!(four(own, [22, 61]), Some((vec![241, 49, 35, 35], 1)));
        assert_eq!(four(own, [22, 77]), None);
    }

    /// Column 1 is wrong in both planes, check 1 in the first, column 2 in the second: more than t places in all.
    #[test]
    fn places_count_once_over_planes() {
        let settings = Group {
            w: 2,
            ..group(7, 2)
        };
        let coder = Coder::new(7, 4);
        let right: Vector = (1..=7).map(|k| vec![k, 10 * k]).collect();
        let (mut own, mut checks) = (right.clone(), coder.checks(&right));
        (own[0], own[1]) = (vec![200, 201], vec![2, 202]);
        checks[0][0] ^= 1;
        let repaired = repaired(&settings, &coder, &own, &checks);
        assert_eq!(repaired, Some((right, 3)));
    }

    /// Every change of at most one place tried: the vector of the one that makes a codeword, and how many places it changes.
    fn by_trying(coder: &Coder, n: usize, word: &[Value]) -> Option<(Vector, usize)> {
        let is_codeword = |word: &[Value]| coder.checks(&word[..n]) == word[n..];
        for place in 0..word.len() {
            for change in 0..=255 {
                let mut tried = word.to_vec();
                tried[place][0] ^= change;
                if is_codeword(&tried) {
                    return Some((tried[..n].to_vec(), usize::from(change != 0)));
                }
            }
        }
        None
    }

    /// How many places each good column changes for each sender, in a round where no frame is missing and every vector is near.
    fn changed_by_trying(
        group: &Group,
        coder: &Coder,
        round: u8,
        own: &OfGood<Vector>,
    ) -> Vec<Vec<usize>> {
        let changed = |reader: usize, from: usize| {
            let checks = match own.get(&from) {
                Some(vector) => coder.checks(vector),
                None => group.sent[&(round, from, reader)].clone(),
            };
            let found = by_trying(coder, group.n, &[own[&reader].as_slice(), &checks].concat());
            assert_eq!(repaired(group, coder, &own[&reader], &checks), found);
            found.unwrap().1
        };
        let of_each = |&reader: &usize| (1..=group.n).map(|from| changed(reader, from)).collect();
        own.keys().map(of_each).collect()
    }

    /// Column 3 alone has heard 40 of column 4: it is one place off the other two in round two, and in round three, where it has a blank.
    #[test]
    fn changed_places_in_the_exchange_of_004() {
        let file = [
            &[1, 4, 1, 1][..],
            &[4, 1, 241],
            &[4, 2, 86],
            &[4, 3, 35],
            &[2, 4, 1, 35],
            &[2, 4, 2, 35],
            &[2, 4, 3, 40],
            &[3, 2, 4, 1, 22, 61],
            &[3, 2, 4, 2, 0, 136],
            &[3, 2, 4, 3, 121, 143],
            &[3, 3, 4, 1, 87, 61],
            &[3, 3, 4, 2, 87, 61],
            &[3, 3, 4, 3, 123, 149],
            &[15],
        ];
        let group = read(&file.concat()).unwrap();
        let coder = Coder::new(4, 2);
        let heard = heard(&group);
        let agreed = agreed(&group, &coder, &heard);
        let worked = [[0, 0, 1, 1], [0, 0, 1, 1], [1, 1, 0, 1]];
        assert_eq!(changed_by_trying(&group, &coder, 2, &heard), worked);
        assert_eq!(changed_by_trying(&group, &coder, 3, &agreed), worked);
    }

    #[test]
    fn repair_is_what_trying_finds() {
        let mut draw = Draw::new(1);
        let mut found = 0;
        for _ in 0..100 {
            let n = draw.between(4, 32);
            let coder = Coder::new(n, 2);
            let vector: Vector = (0..n).map(|_| vec![draw.byte()]).collect();
            let mut word = [vector.as_slice(), &coder.checks(&vector)].concat();
            for _ in 0..draw.below(4) {
                let place = draw.below(n + 2);
                word[place][0] = draw.byte();
            }
            let answer = repaired(&group(n, 1), &coder, &word[..n], &word[n..]);
            assert_eq!(answer, by_trying(&coder, n, &word));
            found += usize::from(answer.is_some());
        }
        assert!((30..95).contains(&found), "{found} repaired");
    }
}
