//! The local test (document 01, "The local test"), by searching cells, and the face by which its voxel comes out (document 02, CR 8).

/// The cells that are faces, in the order of their numbers: low x, high x, low y, high y, low z, high z.
const FACES: [usize; 6] = [12, 14, 10, 16, 4, 22];

/// What stands for a face where there is none.
pub const NO_FACE: u32 = 6;

#[derive(Clone, Copy, Debug, PartialEq, Eq)]
pub struct Local {
    pub k: u32,
    pub m: u32,
    pub corners: u32,
    pub edges: u32,
    pub faces: u32,
    /// The lowest numbered bare face, or `NO_FACE`.
    pub face: u32,
}

impl Local {
    pub fn passes(&self) -> bool {
        self.k == 1 && self.m == 1
    }
}

/// A neighbour of the middle cube, or a cell of its surface: along each axis -1 or 1 for a side, 0 for the cube's own stretch.
fn offset(place: usize) -> [i32; 3] {
    [(place % 3) as i32 - 1, (place / 3 % 3) as i32 - 1, (place / 9) as i32 - 1]
}

/// A cube or cell holds every cell whose side it lies on, and spans both sides where it runs along the axis.
fn holds(outer: [i32; 3], inner: [i32; 3]) -> bool {
    (0..3).all(|k| outer[k] == 0 || outer[k] == inner[k])
}

fn groups(cells: &[usize]) -> u32 {
    let mut seen = vec![false; cells.len()];
    let mut count = 0;
    for start in 0..cells.len() {
        if seen[start] {
            continue;
        }
        count += 1;
        seen[start] = true;
        let mut work = vec![start];
        while let Some(i) = work.pop() {
            for j in 0..cells.len() {
                let (c, d) = (offset(cells[i]), offset(cells[j]));
                if !seen[j] && (holds(c, d) || holds(d, c)) {
                    seen[j] = true;
                    work.push(j);
                }
            }
        }
    }
    count
}

/// The test of a block of 27 places, x + 3 y + 9 z; the middle one, 13, is not regarded.
pub fn local_test(kept: &[bool; 27]) -> Local {
    let places: Vec<usize> = (0..27).filter(|&p| p != 13).collect();
    let is_touched = |c: usize| places.iter().any(|&v| kept[v] && holds(offset(v), offset(c)));
    let touched: Vec<usize> = places.iter().copied().filter(|&c| is_touched(c)).collect();
    let bare: Vec<usize> = places.iter().copied().filter(|&c| !is_touched(c)).collect();
    let of_kind = |axes: usize| touched.iter().filter(|&&c| offset(c).iter().filter(|&&d| d == 0).count() == axes).count() as u32;
    let face = FACES.iter().position(|face| bare.contains(face)).map_or(NO_FACE, |number| number as u32);
    Local { k: groups(&touched), m: groups(&bare), corners: of_kind(0), edges: of_kind(1), faces: of_kind(2), face }
}

#[cfg(test)]
mod tests {
    use super::*;

    fn km(kept: &[usize]) -> (u32, u32) {
        let mut block = [false; 27];
        for &p in kept {
            block[p] = true;
        }
        let r = local_test(&block);
        (r.k, r.m)
    }

    fn of_kinds(kinds: &[usize]) -> Vec<usize> {
        (0..27).filter(|&p| kinds.contains(&offset(p).iter().filter(|&&d| d == 0).count())).collect()
    }

    #[test]
    fn worked_local_tests() {
        assert_eq!(km(&[]), (0, 1));
        assert_eq!(km(&of_kinds(&[0, 1, 2])), (1, 0));
        assert_eq!(km(&[4]), (1, 1));
        assert_eq!(km(&[0]), (1, 1));
        assert_eq!(km(&[4, 22]), (2, 1));
        assert_eq!(km(&[10, 12, 14, 16]), (1, 2));
        assert_eq!(km(&[4, 10, 12, 14, 16]), (1, 1));
        assert_eq!(km(&of_kinds(&[0])), (8, 1));
        assert_eq!(km(&of_kinds(&[0, 1])), (1, 6));
    }

    /// Document 02, CR 3: m = k + 1 - corners + edges - faces, here on blocks from a seed, of every density.
    #[test]
    fn m_by_the_formula() {
        let mut state = 0x2545_F491_4F6C_DD1Du64;
        for round in 0..20_000 {
            let block: [bool; 27] = std::array::from_fn(|_| {
                state ^= state << 13;
                state ^= state >> 7;
                state ^= state << 17;
                state % 100 < round % 101
            });
            let Local { k, m, corners, edges, faces, .. } = local_test(&block);
            assert_eq!(i64::from(m), i64::from(k) + 1 - i64::from(corners) + i64::from(edges) - i64::from(faces), "{block:?}");
        }
    }
}
