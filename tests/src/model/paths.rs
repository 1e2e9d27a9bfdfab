//! One outline as corners and as path data, a chain written and read, and the stretch of a cycle: points and steps, each
//! condition of causes 16 and 17 asked by itself. The library reads chains only; the writer here is for its tests.

/// x and y.
pub type Point = (u32, u32);

/// The point of a corner, which is y times 512 plus x.
pub fn point(corner: u32) -> Point {
    (corner % 512, corner / 512)
}

pub fn corner(x: u32, y: u32) -> u32 {
    y * 512 + x
}

fn inside(corner: u32) -> bool {
    let (x, y) = point(corner);
    x <= 256 && y <= 256
}

/// The steps of an outline, from each corner to the next and from the last to the first.
fn steps(corners: &[u32]) -> impl Iterator<Item = (Point, Point)> + '_ {
    let ends = corners.iter().cycle().skip(1);
    corners.iter().zip(ends).map(|(&from, &to)| (point(from), point(to)))
}

/// "Cycle form (16)".
pub fn is_cycle_form(corners: &[u32]) -> bool {
    let even = corners.len() % 2 == 0 && (4..=262_144).contains(&corners.len());
    let by_turns = |(i, (from, to)): (usize, (Point, Point))| {
        let along_x = from.1 == to.1 && from.0 != to.0;
        let along_y = from.0 == to.0 && from.1 != to.1;
        if i % 2 == 0 {
            along_x
        } else {
            along_y
        }
    };
    even && corners.iter().all(|&c| inside(c))
        && steps(corners).next().is_some_and(|(from, to)| from.0 < to.0)
        && steps(corners).enumerate().all(by_turns)
}

/// "SVG: M, x, one space, y of the first corner, then H with x and V with y by turns for the later corners, then Z."
pub fn svg(corners: &[u32]) -> String {
    let mut text = String::new();
    for (i, &c) in corners.iter().enumerate() {
        let (x, y) = point(c);
        text += &match i {
            0 => format!("M{x} {y}"),
            _ if i % 2 == 1 => format!("H{x}"),
            _ => format!("V{y}"),
        };
    }
    text + "Z"
}

/// "Chain: one byte 48 plus digit for each unit edge, from the first corner."
pub fn chain(corners: &[u32]) -> Vec<u8> {
    steps(corners)
        .flat_map(|((x, y), (x1, y1))| {
            let digit = match (x1 > x, x1 < x, y1 < y) {
                (true, _, _) => b'0',
                (_, true, _) => b'2',
                (_, _, true) => b'1',
                _ => b'3',
            };
            vec![digit; (x.abs_diff(x1) + y.abs_diff(y1)) as usize]
        })
        .collect()
}

/// The corners of a chain, or `None` where cause 17 holds.
pub fn read_chain(start: u32, chain: &[u8]) -> Option<Vec<u32>> {
    if !inside(start) || !chain.iter().all(|b| (48..=51).contains(b)) {
        return None;
    }
    let (x, y) = point(start);
    let mut points = vec![(i64::from(x), i64::from(y))];
    for byte in chain {
        let (x, y) = points[points.len() - 1];
        points.push(match byte {
            b'0' => (x + 1, y),
            b'1' => (x, y - 1),
            b'2' => (x - 1, y),
            _ => (x, y + 1),
        });
    }
    let within = points.iter().all(|(x, y)| (0..=256).contains(x) && (0..=256).contains(y));
    let closed = points[0] == points[points.len() - 1];
    let ends = chain.first() == Some(&b'0') && matches!(chain.last(), Some(b'1' | b'3'));
    let no_reversal = chain.windows(2).all(|w| w[0].abs_diff(w[1]) != 2);
    if !(within && closed && ends && no_reversal) {
        return None;
    }
    let before = |i: usize| chain[(i + chain.len() - 1) % chain.len()];
    let corners: Vec<u32> = (0..chain.len())
        .filter(|&i| chain[i] != before(i))
        .map(|i| corner(points[i].0 as u32, points[i].1 as u32))
        .collect();
    (corners.len() <= 262_144).then_some(corners)
}

/// Where the stretch of cycle k begins in a corner list of `corners` entries, and how long it is.
pub fn stretch(corners: usize, ends: &[u32], count: u32, k: u32) -> (usize, usize) {
    let at = k as usize;
    if k >= count || at >= ends.len() {
        return (0, 0);
    }
    let begin = if at == 0 { 0 } else { ends[at - 1] as usize };
    let end = ends[at] as usize;
    if begin > end || end > corners {
        return (0, 0);
    }
    (begin, end - begin)
}

#[cfg(test)]
mod tests {
    use super::*;

    #[test]
    fn dial_1() {
        let corners = [corner(0, 0), corner(1, 0), corner(1, 1), corner(0, 1)];
        assert!(is_cycle_form(&corners));
        assert_eq!(svg(&corners), "M0 0H1V1H0Z");
        assert_eq!(chain(&corners), b"0321");
        assert_eq!(read_chain(0, b"0321"), Some(corners.to_vec()));
    }

    #[test]
    fn dial_2() {
        let corners =
            [(0, 0), (4, 0), (4, 2), (2, 2), (2, 1), (1, 1), (1, 2), (2, 2), (2, 4), (0, 4)].map(|(x, y)| corner(x, y));
        assert!(is_cycle_form(&corners));
        assert_eq!(svg(&corners), "M0 0H4V2H2V1H1V2H2V4H0Z");
        assert_eq!(read_chain(0, &chain(&corners)), Some(corners.to_vec()));
    }
}
