//! The calls that document 01 and requests 3, 6, 7 and 11 know, with their lent tables and answers: what the sides of a comparison
//! have in common.

pub const NONE: u16 = 65535;
pub const BODIES: usize = 4096;
pub const MANIFOLDS: usize = 4096;
pub const JOINTS: usize = 4096;
pub const PAIRS: usize = 8192;
/// The longest file of pairs, and the longest of either version.
pub const PAIR_FILE_BYTES: usize = 40971;
pub const FILE_BYTES: usize = 61451;

/// The type of a logged body (request 6): it connects no bodies and gives no island, yet makes conflicts.
pub const LOGGED: u8 = 3;

/// Whether a body of this type makes conflicts: a dynamic or a logged one.
pub fn conflicts(body_type: u8) -> bool {
    body_type == 2 || body_type == LOGGED
}

/// The flags that bodies of these types have in a coloring.
pub fn flags(types: &[u8]) -> Vec<u8> {
    types.iter().map(|t| conflicts(*t) as u8).collect()
}

/// The fewest and the most endpoints of a constraint that has a count (request 11).
pub const FEWEST: u8 = 2;
pub const MOST: u8 = 4;

/// Endpoints by counts: constraint after constraint without gaps; what the counts do not reach is left out.
pub fn parts(counts: &[u8], ends: &[u16]) -> Vec<Vec<u16>> {
    let mut rest = ends;
    let mut part = |count: &u8| {
        let (part, after) = rest.split_at((*count as usize).min(rest.len()));
        rest = after;
        part.to_vec()
    };
    counts.iter().map(&mut part).collect()
}

/// Endpoint pairs one by one; a last odd entry is no pair.
pub fn pairs(ends: &[u16]) -> Vec<Vec<u16>> {
    ends.chunks_exact(2).map(|pair| pair.to_vec()).collect()
}

/// A frame as an islands call is lent it. Any lists may stand here: pair lists may be odd, types unknown.
#[derive(Clone, Debug, Default, PartialEq)]
pub struct Frame {
    pub types: Vec<u8>,
    pub manifolds: Vec<u16>,
    /// the joints' endpoints: pairs, or by their counts
    pub joints: Vec<u16>,
    /// one a joint, where joints have counts (version 2)
    pub counts: Option<Vec<u8>>,
    pub enabled: Vec<u8>,
}

impl Frame {
    /// How many manifolds and joints: half a pair list's length, rounded down.
    pub fn manifold_count(&self) -> usize {
        self.manifolds.len() / 2
    }

    pub fn joint_count(&self) -> usize {
        self.counts.as_ref().map_or(self.joints.len() / 2, |counts| counts.len())
    }

    pub fn constraint_count(&self) -> usize {
        self.manifold_count() + self.joint_count()
    }

    /// The endpoints of each joint.
    pub fn joint_ends(&self) -> Vec<Vec<u16>> {
        match &self.counts {
            None => pairs(&self.joints),
            Some(counts) => parts(counts, &self.joints),
        }
    }

    /// The endpoints of each constraint: manifolds, then joints.
    pub fn ends(&self) -> Vec<Vec<u16>> {
        [pairs(&self.manifolds), self.joint_ends()].concat()
    }

    /// A constraint is live unless it is a disabled joint.
    pub fn live(&self, number: usize) -> bool {
        match number.checked_sub(self.manifold_count()) {
            None => true,
            Some(joint) => self.enabled[joint] == 1,
        }
    }

    /// Only a dynamic body connects and gives an island.
    pub fn dynamic(&self, body: u16) -> bool {
        self.types[body as usize] == 2
    }

    pub fn conflicts(&self, body: u16) -> bool {
        conflicts(self.types[body as usize])
    }

    pub fn flags(&self) -> Vec<u8> {
        flags(&self.types)
    }

    /// All endpoint pairs as one list.
    pub fn pairs(&self) -> Vec<u16> {
        [&self.manifolds[..], &self.joints[..]].concat()
    }
}

/// The tables of an islands call.
#[derive(Clone, Debug, Default, PartialEq)]
pub struct IslandTables {
    pub parents: Vec<u16>,
    pub sizes: Vec<u16>,
    pub bodies: Vec<u16>,
    pub manifolds: Vec<u16>,
    pub joints: Vec<u16>,
}

/// The tables of a plan, in document 01's order.
#[derive(Clone, Debug, Default, PartialEq)]
pub struct PlanTables {
    pub flags: Vec<u8>,
    pub pairs: Vec<u16>,
    pub adjacency_offsets: Vec<u16>,
    pub adjacency: Vec<u16>,
    pub scratch: Vec<u16>,
    pub colors: Vec<u16>,
    pub color_stamps: Vec<u16>,
    pub body_stamps: Vec<u16>,
    pub group_offsets: Vec<u16>,
    pub members: Vec<u16>,
    pub body_offsets: Vec<u16>,
    pub bodies: Vec<u16>,
    pub positions: Vec<u16>,
}

/// The workspace of a run.
#[derive(Clone, Debug, Default, PartialEq)]
pub struct Workspace {
    pub plan: PlanTables,
    pub types: Vec<u8>,
    pub flags: Vec<u8>,
    pub frame_pairs: Vec<u16>,
    pub island_pairs: Vec<u16>,
    pub enabled: Vec<u8>,
    pub numbers: Vec<u16>,
    /// of version 2: the counts of the frame, of the islands, and those that the plan remembers
    pub counts: Vec<u8>,
    pub island_counts: Vec<u8>,
    pub plan_counts: Vec<u8>,
}

/// A lent table of bytes or of 16-bit numbers, whichever it is.
pub enum Table<'a> {
    Bytes(&'a mut Vec<u8>),
    Numbers(&'a mut Vec<u16>),
}

impl Table<'_> {
    pub fn len(&self) -> usize {
        match self {
            Table::Bytes(t) => t.len(),
            Table::Numbers(t) => t.len(),
        }
    }

    pub fn truncate(&mut self, n: usize) {
        match self {
            Table::Bytes(t) => t.truncate(n),
            Table::Numbers(t) => t.truncate(n),
        }
    }

    pub fn clear(&mut self) {
        match self {
            Table::Bytes(t) => t.fill(0),
            Table::Numbers(t) => t.fill(0),
        }
    }

    /// As many places as wanted, filled with a pattern that differs from table to table.
    pub fn fill(&mut self, n: usize, seed: u32) {
        let at = |i: usize| seed.wrapping_add(i as u32).wrapping_mul(2654435761) >> 16;
        match self {
            Table::Bytes(t) => {
                t.clear();
                t.extend((0..n).map(|i| at(i) as u8));
            }
            Table::Numbers(t) => {
                t.clear();
                t.extend((0..n).map(|i| at(i) as u16));
            }
        }
    }
}

/// Tables that are lent together: each with the least length that question 6 asks for.
pub trait Lent {
    fn tables(&mut self) -> Vec<Table<'_>>;
}

impl Lent for IslandTables {
    fn tables(&mut self) -> Vec<Table<'_>> {
        use Table::Numbers;
        vec![
            Numbers(&mut self.parents),
            Numbers(&mut self.sizes),
            Numbers(&mut self.bodies),
            Numbers(&mut self.manifolds),
            Numbers(&mut self.joints),
        ]
    }
}

impl Lent for PlanTables {
    fn tables(&mut self) -> Vec<Table<'_>> {
        use Table::{Bytes, Numbers};
        vec![
            Bytes(&mut self.flags),
            Numbers(&mut self.pairs),
            Numbers(&mut self.adjacency_offsets),
            Numbers(&mut self.adjacency),
            Numbers(&mut self.scratch),
            Numbers(&mut self.colors),
            Numbers(&mut self.color_stamps),
            Numbers(&mut self.body_stamps),
            Numbers(&mut self.group_offsets),
            Numbers(&mut self.members),
            Numbers(&mut self.body_offsets),
            Numbers(&mut self.bodies),
            Numbers(&mut self.positions),
        ]
    }
}

impl Lent for Workspace {
    fn tables(&mut self) -> Vec<Table<'_>> {
        use Table::{Bytes, Numbers};
        let mut all = self.plan.tables();
        all.push(Bytes(&mut self.types));
        all.push(Bytes(&mut self.flags));
        all.push(Numbers(&mut self.frame_pairs));
        all.push(Numbers(&mut self.island_pairs));
        all.push(Bytes(&mut self.enabled));
        all.push(Numbers(&mut self.numbers));
        all.push(Bytes(&mut self.counts));
        all.push(Bytes(&mut self.island_counts));
        all.push(Bytes(&mut self.plan_counts));
        all
    }
}

/// What a run is lent beside the frame's bytes.
#[derive(Clone, Debug, Default, PartialEq)]
pub struct RunTables {
    pub islands: IslandTables,
    pub turns: Vec<u16>,
    pub workspace: Workspace,
}

impl Lent for RunTables {
    fn tables(&mut self) -> Vec<Table<'_>> {
        let mut all = self.islands.tables();
        all.push(Table::Numbers(&mut self.turns));
        all.extend(self.workspace.tables());
        all
    }
}

/// Tables of these lengths, filled with a pattern.
pub fn lent<T: Lent + Default>(lengths: &[usize]) -> T {
    let mut tables = T::default();
    for (mut table, n) in tables.tables().into_iter().zip(lengths) {
        table.fill(*n, 0);
    }
    tables
}

/// Clears the whole of every table.
pub fn clear(tables: &mut impl Lent) {
    for mut table in tables.tables() {
        table.clear();
    }
}

/// The lengths that question 6 asks for, in the order of the tables.
pub fn island_lengths(bodies: usize, manifolds: usize, joints: usize) -> Vec<usize> {
    vec![bodies, bodies, bodies, manifolds, joints]
}

/// Of so many bodies, constraints and endpoint entries.
pub fn lengths_with(b: usize, c: usize, e: usize) -> Vec<usize> {
    vec![b, e, b + 1, e, b.max(c), c, c, b, c + 1, c, c + 1, e, e]
}

pub fn plan_lengths(b: usize, c: usize) -> Vec<usize> {
    lengths_with(b, c, 2 * c)
}

/// Of a run on version 2, if `counted`, or on version 1, which asks nothing of the tables of counts.
pub fn run_lengths(b: usize, m: usize, j: usize, counted: bool) -> Vec<usize> {
    let c = m + j;
    let (e, counts) = if counted { (2 * m + 4 * j, c) } else { (2 * c, 0) };
    let mut all = island_lengths(b, m, j);
    all.push(3 * c);
    all.extend(lengths_with(b, c, e));
    all.extend([b, b, e, e, j, c, counts, counts, counts]);
    all
}

/// Those of a frame.
pub fn run_lengths_of(frame: &Frame) -> Vec<usize> {
    run_lengths(frame.types.len(), frame.manifold_count(), frame.joint_count(), frame.counts.is_some())
}

/// The bytes of a version 1 file with so many bodies, manifolds and joints.
pub fn file_length(b: usize, m: usize, j: usize) -> usize {
    11 + b + 4 * m + 5 * j
}

/// Whether every lent table is at least as long as wanted.
pub fn roomy(tables: &mut impl Lent, lengths: &[usize]) -> bool {
    tables.tables().iter().zip(lengths).all(|(t, n)| t.len() >= *n)
}

/// What an update carries by value: bodies, constraints, groups, largest group.
#[derive(Clone, Copy, Debug, Default, PartialEq)]
pub struct Carried {
    pub bodies: usize,
    pub constraints: usize,
    pub groups: usize,
    pub largest: usize,
}

#[derive(Clone, Copy, Debug, PartialEq)]
pub enum Update {
    Changed,
    Unchanged,
    Refused(u8),
}

/// A part of a table: from where, and how many places. An empty part is at 0.
pub type Part = (usize, usize);

/// A binding: a body number and a mark (0 read-only, 1 held, else taken) for each of 4,096 places.
#[derive(Clone, Debug, PartialEq)]
pub struct Binding {
    pub bodies: Vec<u16>,
    pub marks: Vec<u8>,
    pub count: usize,
}

impl Binding {
    pub fn empty() -> Binding {
        Binding { bodies: vec![0; BODIES], marks: vec![0; BODIES], count: 0 }
    }
}

/// A take's answer: two bodies in the order asked, each with "dynamic", or a refusal.
#[derive(Clone, Copy, Debug, PartialEq)]
pub enum Take {
    Taken([(u16, bool); 2]),
    Refused(u8),
}

/// What a run carries: all 0 where it was refused.
#[derive(Clone, Copy, Debug, Default, PartialEq)]
pub struct Report {
    pub refusal: u8,
    pub islands: usize,
    pub turns: usize,
    pub takes: usize,
    pub degree: usize,
}

/// A side of a comparison.
pub trait Calls {
    /// A plan with what this side keeps beside its tables.
    type Plan;

    /// The refusal or 0, and the island count.
    fn islands(&self, frame: &Frame, tables: &mut IslandTables) -> (u8, usize);

    fn fresh(&self) -> Self::Plan;
    fn carried(&self, plan: &Self::Plan) -> Carried;
    fn update(&self, plan: &mut Self::Plan, flags: &[u8], pairs: &[u16], tables: &mut PlanTables) -> Update;

    /// The members and the bodies of a group: a part of the plan's own table.
    fn members(&self, plan: &Self::Plan, tables: &PlanTables, group: usize) -> Part;
    fn bodies(&self, plan: &Self::Plan, tables: &PlanTables, group: usize) -> Part;
    fn positions(&self, plan: &Self::Plan, tables: &PlanTables, constraint: usize) -> Result<[u16; 2], u8>;

    /// The same lookups for any numbers that a plan may carry and any tables.
    fn forged_part(&self, groups: usize, offsets: &[u16], table: &[u16], group: usize) -> [Part; 2];
    fn forged_positions(&self, constraints: usize, table: &[u16], constraint: usize) -> Result<[u16; 2], u8>;

    /// A bind, then takes from that binding; after the bind and after each take the binding is shown.
    fn bind(&self, types: &[u8], list: &[u16], takes: &[[usize; 2]], show: &mut dyn FnMut(Shown));

    /// A take from any value that a binding may have.
    fn forged_take(&self, binding: &mut Binding, positions: [usize; 2]) -> Take;

    fn run(&self, file: &[u8], tables: &mut RunTables) -> Report;

    /// What the program prints.
    fn print(&self, file: &[u8]) -> Vec<u8>;

    /// What the sample program prints, where a side has one: the same.
    fn sample(&self, _file: &[u8]) -> Option<Vec<u8>> {
        None
    }

    /// The lift of a seed with so many bodies, manifolds and joints, as a file from place 0 of lent bytes: the refusal or 0,
    /// and the file's length.
    fn generate(&self, seed: u32, sizes: [usize; 3], bytes: &mut [u8]) -> (u8, usize);

    /// What the program `generate_frame` prints for a line; None for a line that it cannot read.
    fn lift_line(&self, line: &[u8]) -> Option<Vec<u8>>;
}

/// What a bind or a take answered, and the binding after it.
pub struct Shown<'a> {
    pub answer: Answer,
    pub bodies: &'a [u16],
    pub marks: &'a [u8],
    pub count: usize,
}

#[derive(Clone, Copy, Debug, PartialEq)]
pub enum Answer {
    /// A bind's refusal or 0.
    Bound(u8),
    Took(Take),
}
