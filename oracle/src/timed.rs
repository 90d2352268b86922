//! Request 9's frames: files of the proved generator, seeds 0 to 99, with the figures of the request's page, and decoded for
//! both sides.
use crate::bench::RustFrame;
use crate::calls::*;
use crate::{frames, ours, scope};

pub const SEEDS: u32 = 100;

/// Bodies, manifolds and joints.
pub const SIZES: [usize; 3] = [4096, 4096, 0];

// ---- the page's figures

/// A seed; its islands and the groups of all its constraints as one list; its file's checksum.
type Sample = (usize, [usize; 2], u32);

const SAMPLES: [Sample; 5] = [
    (0, [723, 9], 710_487_288),
    (1, [738, 7], 866_616_132),
    (2, [733, 8], 787_770_412),
    (3, [710, 8], 781_035_469),
    (99, [727, 8], 807_979_808),
];

/// Over all seeds: the sums of the islands and of the groups, the fewest and the most groups, the checksums' sum modulo 2^32.
const FOUND_SUMS: [usize; 2] = [72_622, 802];
const GROUP_RANGE: [usize; 2] = [7, 11];
const CHECKSUM_SUM: u32 = 3_825_016_648;

// ---- the frames

/// The file of a seed. The oracle's own generator must write the same bytes.
fn file(seed: u32) -> Vec<u8> {
    let [b, m, j] = SIZES;
    let mut bytes = vec![0xAB; file_length(b, m, j)];
    assert_eq!(ours::generate(seed, SIZES, &mut bytes), (0, bytes.len()));
    assert!(bytes == scope::write(&frames::lift(seed, b, m, j)), "the file of seed {seed} differs");
    bytes
}

/// The sum of (place + 1) x byte modulo 2^32.
fn checksum(bytes: &[u8]) -> u32 {
    bytes.iter().zip(1u32..).fold(0, |sum, (byte, place)| sum.wrapping_add(place.wrapping_mul(*byte as u32)))
}

/// The files of all seeds, made by the proved generator. Their checksums must be the page's.
pub fn files() -> Vec<Vec<u8>> {
    let files: Vec<Vec<u8>> = (0..SEEDS).map(file).collect();
    let checksums: Vec<u32> = files.iter().map(|bytes| checksum(bytes)).collect();
    for (seed, _, known) in SAMPLES {
        assert_eq!(checksums[seed], known, "the checksum of seed {seed}");
    }
    assert_eq!(checksums.iter().fold(0, |sum: u32, n| sum.wrapping_add(*n)), CHECKSUM_SUM, "the checksums' sum");
    files
}

/// A file's frame as each side takes it; the flags and pairs are an update's.
pub struct Decoded {
    pub frame: Frame,
    pub flags: Vec<u8>,
    pub pairs: Vec<u16>,
    pub rust: RustFrame,
}

impl Decoded {
    pub fn of(file: &[u8]) -> Decoded {
        let frame = scope::read(file).unwrap();
        Decoded { flags: frame.flags(), pairs: frame.pairs(), rust: RustFrame::of(&frame), frame }
    }
}

/// The islands and groups that were found, a pair for each seed, must be the page's.
pub fn check_found(found: &[[usize; 2]]) {
    for (seed, known, _) in SAMPLES {
        assert_eq!(found[seed], known, "the islands and groups of seed {seed}");
    }
    let sums = [0, 1].map(|k| found.iter().map(|f| f[k]).sum::<usize>());
    assert_eq!(sums, FOUND_SUMS, "the sums of islands and groups");
    let groups = found.iter().map(|f| f[1]);
    let range = [groups.clone().min(), groups.max()].map(Option::unwrap);
    assert_eq!(range, GROUP_RANGE, "the fewest and the most groups");
}

// ---- our side

/// Clears the islands' tables and finds the islands of a frame: how many.
pub fn islands(frame: &Frame, tables: &mut IslandTables) -> usize {
    clear(tables);
    let (refusal, islands) = ours::islands(frame, tables);
    assert_eq!(refusal, 0);
    islands
}

/// What we are lent for islands and one coloring: tables of exactly the lengths that the frames need.
pub struct OurTables {
    pub islands: IslandTables,
    pub plan: PlanTables,
}

impl OurTables {
    pub fn lent() -> OurTables {
        let [b, m, j] = SIZES;
        OurTables { islands: lent(&island_lengths(b, m, j)), plan: lent(&plan_lengths(b, m + j)) }
    }

    /// Clears the islands' tables and finds the islands: how many.
    pub fn build(&mut self, decoded: &Decoded) -> usize {
        islands(&decoded.frame, &mut self.islands)
    }

    /// Clears the plan's tables and colors all constraints as one list on a fresh plan: how many groups.
    pub fn color(&mut self, decoded: &Decoded) -> usize {
        clear(&mut self.plan);
        let mut plan = [0; 4];
        assert_eq!(ours::update(&mut plan, &decoded.flags, &decoded.pairs, &mut self.plan), Update::Changed);
        plan[2]
    }

    /// Islands, then the coloring: how many islands and groups.
    pub fn plan(&mut self, decoded: &Decoded) -> [usize; 2] {
        [self.build(decoded), self.color(decoded)]
    }
}
