//! The calls that are measured, each on eight different tables, so that no branch is learnt by heart.

use crate::desk::{Answer, Counts, Desk, FIGURES, FIRST_FORM, FULL, LENGTHS, Lent, SECOND_FORM, SELECTED_REPLY, SHEET};
use crate::images::{self, EMPTY_ROW, LEASE, Lease, NO_NAME, ROW, Table};
use crate::options;
use crate::random::Random;

pub const CASES: u64 = 8;
const LAST: u32 = 1_000_000;
/// Leases that expire by then are still in the image.
const NOW: u32 = LAST + 500;
const CLIENT: u32 = 1;
/// One that has nothing in any table.
const STRANGER: u32 = 3;

/// How the leases lie.
#[derive(Clone, Copy, Debug, PartialEq, Eq)]
pub enum Shape {
    /// No lease.
    Empty,
    /// One pool of length 8, leases of length 28 one after another.
    Packed,
    /// Eight pools, leases of lengths 27 to 30 with holes between them; only the last pool has room for a length of 20.
    Fragmented,
    /// One pool, all of it leased.
    Full,
}

impl Shape {
    pub fn name(self) -> &'static str {
        match self {
            Shape::Empty => "empty",
            Shape::Packed => "packed",
            Shape::Fragmented => "fragmented",
            Shape::Full => "full",
        }
    }
}

pub type Run = fn(&Desk, &Case, &mut Buffers) -> Answer;

/// What one call is given.
pub struct Case {
    /// A buffer that holds a full image, zeros after the image.
    pub image: Vec<u8>,
    pub bytes: usize,
    /// The same table in the first form, without names.
    pub first: Vec<u8>,
    /// A sheet that matches, with something told in every row of a lease.
    pub figures: Vec<u8>,
    /// Those of the table, but where a row is about others.
    pub counts: Counts,
    pub client: u32,
    pub option: Vec<u8>,
    /// An option 118 that the message carries.
    pub selection: Option<Vec<u8>>,
    pub prefix: (u32, u8),
}

/// What a call changes.
#[derive(PartialEq, Eq)]
pub struct Buffers {
    pub image: Vec<u8>,
    pub bytes: usize,
    pub figures: Vec<u8>,
    pub counts: Counts,
    pub reply: Vec<u8>,
    pub saved: Vec<u8>,
    pub text: Vec<u8>,
}

impl Buffers {
    pub fn new() -> Buffers {
        Buffers {
            image: vec![0; FULL],
            bytes: 0,
            figures: EMPTY_ROW.repeat(FIGURES / ROW),
            counts: [[0; LENGTHS]; 8],
            reply: vec![0; SELECTED_REPLY],
            saved: vec![0; FULL],
            text: vec![0; SHEET],
        }
    }

    /// As a case has them.
    pub fn of(case: &Case) -> Buffers {
        Buffers {
            image: case.image.clone(),
            bytes: case.bytes,
            figures: case.figures.clone(),
            counts: case.counts,
            ..Buffers::new()
        }
    }

    /// Clears the rows of the figures sheet that are a lease's in no case of the row.
    pub fn begin(&mut self, row: &Row) {
        self.figures.copy_from_slice(&row.cases[0].figures);
    }

    /// The case's image, figures sheet and counts, and the bytes after the first two that a call of the row can have
    /// changed.
    pub fn restore(&mut self, row: &Row, case: &Case) {
        self.image[..row.restored].copy_from_slice(&case.image[..row.restored]);
        self.bytes = case.bytes;
        self.figures[..row.restored_figures].copy_from_slice(&case.figures[..row.restored_figures]);
        self.counts = case.counts;
    }

    fn lent(&mut self) -> (Lent<'_>, &mut [u8]) {
        let Buffers { image, bytes, figures, counts, reply, .. } = self;
        (Lent { image, bytes, figures, counts }, reply)
    }
}

impl Default for Buffers {
    fn default() -> Buffers {
        Buffers::new()
    }
}

pub struct Row {
    pub call: &'static str,
    /// The command whose stack this row is counted to.
    pub command: &'static str,
    /// As the table shows it: leases before the call.
    pub leases: usize,
    /// 0, 64, 256 or 1,024: rows of the same call and shape are compared by this.
    pub scale: usize,
    pub shape: Shape,
    /// The number that every case answers with.
    pub number: u32,
    /// How many leases there are more after the call, where a row is about that.
    pub grows: Option<usize>,
    /// The bytes of the largest image before or after the call.
    pub restored: usize,
    /// The bytes of all rows that are a lease's before or after the call.
    pub restored_figures: usize,
    pub cases: Vec<Case>,
    pub run: Run,
}

fn ask(desk: &Desk, case: &Case, buffers: &mut Buffers) -> Answer {
    let (lent, reply) = buffers.lent();
    (desk.ask)(lent, case.client, NOW, &case.option, case.selection.as_deref(), reply)
}

fn take(desk: &Desk, case: &Case, buffers: &mut Buffers) -> Answer {
    let (lent, reply) = buffers.lent();
    (desk.take)(lent, case.client, NOW, &case.option, case.selection.as_deref(), reply)
}

fn list(desk: &Desk, case: &Case, buffers: &mut Buffers) -> Answer {
    let Buffers { image, bytes, counts, reply, .. } = buffers;
    (desk.list)(image, *bytes, counts, case.client, NOW, &case.option, reply)
}

fn release(desk: &Desk, case: &Case, buffers: &mut Buffers) -> Answer {
    (desk.release)(buffers.lent().0, case.client, NOW, &case.option)
}

fn mark(desk: &Desk, case: &Case, buffers: &mut Buffers) -> Answer {
    let (network, length) = case.prefix;
    (desk.mark)(buffers.lent().0, network, length.into(), 1, NOW)
}

fn load(desk: &Desk, case: &Case, buffers: &mut Buffers) -> Answer {
    (desk.load)(buffers.lent().0, &case.image[..case.bytes])
}

fn load_first(desk: &Desk, case: &Case, buffers: &mut Buffers) -> Answer {
    (desk.load)(buffers.lent().0, &case.first)
}

fn save(desk: &Desk, _: &Case, buffers: &mut Buffers) -> Answer {
    (desk.save)(&buffers.image, buffers.bytes, &buffers.counts, SECOND_FORM, 0, &mut buffers.saved)
}

fn save_first(desk: &Desk, _: &Case, buffers: &mut Buffers) -> Answer {
    (desk.save)(&buffers.image, buffers.bytes, &buffers.counts, FIRST_FORM, 0, &mut buffers.saved)
}

fn save_older(desk: &Desk, _: &Case, buffers: &mut Buffers) -> Answer {
    (desk.save)(&buffers.image, buffers.bytes, &buffers.counts, SECOND_FORM, 1, &mut buffers.saved)
}

fn save_first_older(desk: &Desk, _: &Case, buffers: &mut Buffers) -> Answer {
    (desk.save)(&buffers.image, buffers.bytes, &buffers.counts, FIRST_FORM, 1, &mut buffers.saved)
}

fn whole(desk: &Desk, case: &Case, buffers: &mut Buffers) -> Answer {
    (desk.whole)(&buffers.image, buffers.bytes, &buffers.counts, case.prefix.1.into())
}

fn sheet(desk: &Desk, _: &Case, buffers: &mut Buffers) -> Answer {
    (desk.sheet)(&buffers.image[..buffers.bytes], &mut buffers.text)
}

fn open(desk: &Desk, _: &Case, buffers: &mut Buffers) -> Answer {
    let networks = [70, 60, 50, 40, 30, 20, 10, 80].map(|octet: u32| octet << 24);
    let lengths = [8, 9, 10, 11, 12, 13, 14, 15];
    (desk.open)(buffers.lent().0, &networks, &lengths, 3600, 28, LAST)
}

fn lease(random: &mut Random, network: u32, length: u8) -> Lease {
    Lease {
        network,
        length,
        // Most are leased; an offer lasts no longer than 120 s, a table may say otherwise.
        state: if random.once_in(8) { 1 } else { 2 },
        flags: random.below(4) as u8,
        client: CLIENT + random.below(2) as u32,
        expires: NOW + 1 + random.below(3000) as u32,
        name: NO_NAME,
    }
}

/// 5 to 13 letters.
fn letters(random: &mut Random) -> Vec<u8> {
    (0..5 + random.below(9)).map(|_| b'a' + random.below(26) as u8).collect()
}

fn table(pools: Vec<(u32, u8)>, leases: Vec<Lease>) -> Table {
    Table { term: 3600, default_length: 28, last: LAST, pools, leases }
}

/// Seven pools for so many leases, and a large one after them.
fn fragmented_pools(leases: usize) -> Vec<(u32, u8)> {
    let length = if leases > 256 { 19 } else { 21 };
    let mut pools: Vec<(u32, u8)> = (0..7).map(|k| (0x0a00_0000 + (k << (32 - length)), length)).collect();
    pools.push((0x0a01_0000, 16));
    pools
}

/// As many leases in each pool as in the others; nothing if one of them got too full, or if one before the last has room for a
/// length of 20.
fn fragmented(random: &mut Random, leases: usize) -> Option<Table> {
    let pools = fragmented_pools(leases);
    let mut found = Vec::new();
    for (k, &(network, length)) in pools.iter().enumerate() {
        let to = network + (1 << (32 - length));
        let mut at = network;
        while found.len() < leases * (k + 1) / pools.len() {
            let length = 27 + random.below(4) as u8;
            let size = 1 << (32 - length);
            at = at.next_multiple_of(size) + size * random.below(3) as u32;
            if at + size > to {
                return None;
            }
            found.push(lease(random, at, length));
            at += size;
        }
        if length == 19 && to - at >= 1 << 12 {
            return None;
        }
    }
    Some(table(pools, found))
}

fn packed(random: &mut Random, leases: usize) -> Table {
    let leases = (0..leases as u32).map(|k| lease(random, 0x0a00_0000 + 16 * k, 28)).collect();
    table(vec![(0x0a00_0000, 8)], leases)
}

/// A pool with nothing free: 64 leases, or 255 or 1,023 of which one is twice as large.
fn full(random: &mut Random, leases: usize) -> Table {
    let large = leases % 2;
    let pool = 30 - (leases + large).ilog2() as u8;
    let mut found: Vec<Lease> = (0..(leases - large) as u32).map(|k| lease(random, 0x0a00_0000 + 4 * k, 30)).collect();
    if large == 1 {
        let at = 0x0a00_0000 + 4 * (leases - large) as u32;
        found.push(lease(random, at, 29));
    }
    table(vec![(0x0a00_0000, pool)], found)
}

fn table_of(random: &mut Random, shape: Shape, leases: usize) -> Table {
    match shape {
        Shape::Empty => table(fragmented_pools(0), Vec::new()),
        Shape::Packed => packed(random, leases),
        Shape::Full => full(random, leases),
        Shape::Fragmented => loop {
            if let Some(table) = fragmented(random, leases) {
                break table;
            }
        },
    }
}

/// Some places below `count`, each at most once.
fn places(random: &mut Random, count: usize, some: usize) -> Vec<usize> {
    let mut all: Vec<usize> = (0..count).collect();
    for k in 0..some.min(count) {
        let other = k + random.below((count - k) as u64) as usize;
        all.swap(k, other);
    }
    all.truncate(some);
    all
}

/// Prefixes of leases of the client, in any order; where there are none, one that is nobody's.
fn named(random: &mut Random, table: &Table, count: usize) -> Vec<(u32, u8)> {
    let own: Vec<(u32, u8)> = table
        .leases
        .iter()
        .filter(|lease| lease.client == CLIENT && lease.expires > NOW)
        .map(|lease| (lease.network, lease.length))
        .collect();
    if own.is_empty() {
        return vec![(0x0a00_0100, 28); count];
    }
    let places = places(random, own.len(), count);
    places.into_iter().map(|place| own[place]).collect()
}

/// A row to be: what the call is, and how the table and the option of each case are made.
struct Plan {
    call: &'static str,
    command: &'static str,
    run: Run,
    number: u32,
    client: u32,
    expired: usize,
    /// How many offers the client has, all with this h; nothing: any, as they come.
    offers: Option<(usize, bool)>,
    grows: Option<usize>,
    option: fn(&mut Random, &Table) -> Vec<u8>,
    /// Mark looks for a lease that there is.
    found: bool,
    /// Every lease has a name.
    names: bool,
    /// Which root the call names, if any.
    selection: fn(&mut Random, &Table, &[u8]) -> Option<Vec<u8>>,
}

fn row(plan: &Plan, shape: Shape, scale: usize, leases: usize) -> Row {
    let mut random = Random(leases as u64);
    let mut told = Random(random.0 + 1);
    let mut cases = Vec::new();
    for _ in 0..CASES {
        let mut table = table_of(&mut random, shape, leases);
        for place in places(&mut random, leases, plan.expired) {
            table.leases[place].expires = LAST + 1;
        }
        if let Some((count, h)) = plan.offers {
            make_offers(&mut random, &mut table, count, h);
        }
        let option = (plan.option)(&mut random, &table);
        let selection = (plan.selection)(&mut random, &table, &option);
        let mut prefix = named(&mut random, &table, 1)[0];
        if !plan.found {
            prefix.1 = 26;
        }
        let first = table.first_image();
        if plan.names {
            for lease in &mut table.leases {
                lease.name = images::name(&letters(&mut told));
            }
        }
        let mut image = table.image();
        let bytes = image.len();
        image.resize(FULL, 0);
        let mut figures = table.figures(|| told.below(0xffff) as u16);
        if plan.number == 15 {
            figures[FIGURES - ROW] ^= 1;
        }
        let mut counts = table.counts();
        if plan.number == 5 {
            counts[7][LENGTHS - 1] ^= 1;
        }
        cases.push(Case { image, bytes, first, figures, counts, client: plan.client, option, selection, prefix });
    }
    Row {
        call: plan.call,
        command: plan.command,
        leases,
        scale,
        shape,
        number: plan.number,
        grows: plan.grows,
        restored: 0,
        restored_figures: 0,
        cases,
        run: plan.run,
    }
}

/// So many leases are offers to the client, all with this h; what else it has is leased.
fn make_offers(random: &mut Random, table: &mut Table, count: usize, h: bool) {
    for lease in table.leases.iter_mut().filter(|lease| lease.client == CLIENT) {
        lease.state = 2;
    }
    for place in places(random, table.leases.len(), count) {
        let lease = &mut table.leases[place];
        (lease.client, lease.state) = (CLIENT, 1);
        lease.flags = lease.flags & 2 | u8::from(h);
    }
}

/// 25 requests without h in any order: one for the length of each offer that the client has, the others for lengths of which
/// there is no lease.
fn ask_offers(random: &mut Random, table: &Table) -> Vec<u8> {
    let offers = table.leases.iter().filter(|lease| lease.client == CLIENT && lease.state == 1);
    let mut lengths: Vec<u8> = offers.map(|offer| offer.length).collect();
    lengths.resize_with(25, || 22 + random.below(5) as u8);
    let order = places(random, 25, 25);
    options::ask(&order.iter().map(|&place| lengths[place]).collect::<Vec<u8>>())
}

/// No root is named.
fn anywhere(_: &mut Random, _: &Table, _: &[u8]) -> Option<Vec<u8>> {
    None
}

/// An address in any of the roots.
fn one_root(random: &mut Random, table: &Table, _: &[u8]) -> Option<Vec<u8>> {
    let (network, length) = table.pools[random.below(table.pools.len() as u64) as usize];
    Some(options::selection(network + random.below(1 << (32 - length)) as u32))
}

/// The network of the first entry.
fn its_root(_: &mut Random, _: &Table, option: &[u8]) -> Option<Vec<u8>> {
    let network = option.get(6..10)?.try_into().ok()?;
    Some(options::selection(u32::from_be_bytes(network)))
}

fn ask_20(_: &mut Random, _: &Table) -> Vec<u8> {
    options::ask(&[20])
}

fn ask_9(_: &mut Random, _: &Table) -> Vec<u8> {
    options::ask(&[9])
}

fn ask_9_25(_: &mut Random, _: &Table) -> Vec<u8> {
    options::ask(&[9; 25])
}

fn ask_28(_: &mut Random, _: &Table) -> Vec<u8> {
    options::ask(&[28])
}

fn ask_26(_: &mut Random, _: &Table) -> Vec<u8> {
    options::ask(&[26])
}

/// Such that all are granted in each root of a fragmented table.
fn ask_25_small(random: &mut Random, _: &Table) -> Vec<u8> {
    let lengths: Vec<u8> = (0..25).map(|_| 27 + random.below(4) as u8).collect();
    options::ask(&lengths)
}

fn ask_25(random: &mut Random, _: &Table) -> Vec<u8> {
    let lengths: Vec<u8> = (0..25).map(|_| 22 + random.below(9) as u8).collect();
    options::ask(&lengths)
}

fn ask_20_as(random: &mut Random, _: &Table) -> Vec<u8> {
    options::ask_as(&letters(random), &[20])
}

fn ask_25_as(random: &mut Random, _: &Table) -> Vec<u8> {
    let lengths: Vec<u8> = (0..25).map(|_| 22 + random.below(9) as u8).collect();
    options::ask_as(&letters(random), &lengths)
}

fn ask_25_too_long(random: &mut Random, _: &Table) -> Vec<u8> {
    let lengths: Vec<u8> = (0..25).map(|_| 22 + random.below(9) as u8).collect();
    options::ask_as(&[b'a'; 25], &lengths)
}

fn entries_1(random: &mut Random, table: &Table) -> Vec<u8> {
    options::entries(&named(random, table, 1))
}

fn entries_25(random: &mut Random, table: &Table) -> Vec<u8> {
    options::entries(&named(random, table, 25))
}

fn told_1(random: &mut Random, table: &Table) -> Vec<u8> {
    with_figures(random, table, 1)
}

fn told_19(random: &mut Random, table: &Table) -> Vec<u8> {
    with_figures(random, table, 19)
}

/// As many entries as there can be with three figures each are 19; one figure in four is untold.
fn with_figures(random: &mut Random, table: &Table, count: usize) -> Vec<u8> {
    let prefixes = named(random, table, count);
    let mut figure = || if random.once_in(4) { 0xffff } else { random.below(0xffff) as u16 };
    let entries: Vec<_> = prefixes.into_iter().map(|prefix| (prefix, [figure(), figure(), figure()])).collect();
    options::entries_with_figures(&entries)
}

fn listing(_: &mut Random, _: &Table) -> Vec<u8> {
    options::list()
}

/// All rows, checked: every case answers with the row's number, on each desk with the same answer and bytes.
pub fn rows(desks: &[&Desk]) -> Vec<Row> {
    use Shape::{Empty, Fragmented, Full, Packed};
    let plain = Plan {
        call: "",
        command: "",
        run: list,
        number: 0,
        client: CLIENT,
        expired: 0,
        offers: None,
        grows: None,
        option: listing,
        found: true,
        names: false,
        selection: anywhere,
    };
    let plan = |call, command, run, option| Plan { call, command, run, option, ..plain };
    let mut rows = vec![row(&plan("open", "open", open, listing), Empty, 0, 0)];
    let mut add = |plan: &Plan, sizes: &[(Shape, usize, usize)]| {
        for &(shape, scale, leases) in sizes {
            rows.push(row(plan, shape, scale, leases));
        }
    };
    let zero = [(Empty, 0, 0)];
    // On 64 leases, and on about four and sixteen times as many: so many less, where the call adds some.
    let up_to = |shape, less| [(shape, 64, 64), (shape, 256, 256 - less), (shape, 1024, 1024 - less)];
    let both = |less| [up_to(Packed, less), up_to(Fragmented, less)].concat();
    let some = &both(0)[..];
    let refused = |plan, number| Plan { number, ..plan };

    // Refused with 2, right after row 5: the image was checked and counted, and nothing else was done; where 5 is given the
    // last count was another. In a take row 15 stands between them: the sheet was looked at too; where 15 is given its last
    // row did not match.
    let checked = Plan { client: 0, number: 2, ..plan("list", "list", list, listing) };
    let matched = Plan { client: 0, number: 2, ..plan("take 1", "take", take, entries_1) };
    let unmatched = refused(plan("take 1", "take", take, entries_1), 15);
    for plan in [
        &checked,
        &refused(plan("list", "list", list, listing), 5),
        &matched,
        &unmatched,
        &plan("whole", "whole", whole, listing),
        &plan("load", "load", load, listing),
        &plan("save", "save", save, listing),
        &plan("load, first form", "load", load_first, listing),
        &plan("save, first form", "save", save_first, listing),
    ] {
        add(plan, &zero);
        add(plan, some);
    }
    // For an older desk: up to 256 leases, and more.
    for (call, run) in [("save, older", save_older as Run), ("save, first, older", save_first_older)] {
        let older = plan(call, "save", run, listing);
        add(&older, &[(Packed, 64, 64), (Packed, 256, 256), (Fragmented, 64, 64), (Fragmented, 256, 256)]);
        add(&refused(older, 20), &[(Packed, 1024, 1024), (Fragmented, 1024, 1024)]);
    }

    // One more and 25 more, up to a full table, for a client that has nothing.
    let plan_ask = |call, option| Plan { client: STRANGER, ..plan(call, "ask", ask, option) };
    let one = plan_ask("ask 1", ask_20);
    add(&one, &zero);
    add(&one, &both(1));
    let many = plan_ask("ask 25", ask_25);
    add(&many, &zero);
    add(&many, &both(25));
    add(&Plan { expired: 25, ..plan_ask("ask 25, 25 expired", ask_25) }, some);
    add(&refused(plan_ask("ask 1", ask_28), 9), &[(Packed, 1024, 1024), (Fragmented, 1024, 1024)]);
    add(&refused(plan_ask("ask 1", ask_9), 10), &[up_to(Full, 1), up_to(Fragmented, 1)].concat());
    add(&refused(plan_ask("ask 25", ask_9_25), 10), &up_to(Fragmented, 1));

    // A client that has offers: all of 25 again, 12 of them again beside 13 new ones, none again because of h; up to a
    // full table.
    for (call, count, h, new) in [
        ("ask 25, all again", 25, false, 0),
        ("ask 25, half again", 12, false, 13),
        ("ask 25, none again", 25, true, 25),
    ] {
        let plan = Plan { offers: Some((count, h)), grows: Some(new), ..plan(call, "ask", ask, ask_offers) };
        add(&plan, &both(new));
    }

    for (call, command, run, option) in [
        ("take 1", "take", take as Run, entries_1 as fn(&mut Random, &Table) -> Vec<u8>),
        ("take 25", "take", take, entries_25),
        ("take 1, figures", "take", take, told_1),
        ("take 19, figures", "take", take, told_19),
        ("return 1", "return", release, entries_1),
        ("return 25", "return", release, entries_25),
        ("list", "list", list, listing),
        ("mark", "mark", mark, listing),
    ] {
        add(&refused(plan(call, command, run, option), 11), &zero);
        add(&plan(call, command, run, option), some);
    }
    add(&Plan { expired: 32, ..plan("mark, 32 expired", "mark", mark, listing) }, some);
    add(&Plan { number: 11, found: false, ..plan("mark", "mark", mark, listing) }, some);

    let text = plan("sheet", "sheet", sheet, listing);
    add(&text, &zero);
    add(&text, some);

    // Every lease with a name, and asks with one.
    let packed = up_to(Packed, 0);
    let named = |plan| Plan { names: true, ..plan };
    add(&named(Plan { client: 0, number: 2, ..plan("list, names", "list", list, listing) }), &packed);
    for (call, command, run, option) in [
        ("load, names", "load", load as Run, listing as fn(&mut Random, &Table) -> Vec<u8>),
        ("save, names", "save", save, listing),
        ("list, names", "list", list, listing),
        ("take 25, names", "take", take, entries_25),
        ("return 25, names", "return", release, entries_25),
        ("sheet, names", "sheet", sheet, listing),
    ] {
        add(&named(plan(call, command, run, option)), &packed);
    }
    add(&named(refused(plan("save, first form", "save", save_first, listing), 18)), &packed);
    add(&named(plan_ask("ask 1, names", ask_20_as)), &up_to(Packed, 1));
    add(&named(plan_ask("ask 25, names", ask_25_as)), &up_to(Packed, 25));
    add(&named(refused(plan_ask("ask 25, names", ask_25_too_long), 17)), &up_to(Packed, 25));

    // A root named among eight: its gaps alone, and of 25 entries those that lie in it.
    let in_one = |plan, selection| Plan { selection, ..plan };
    add(&in_one(plan_ask("ask 1, named root", ask_26), one_root), &up_to(Fragmented, 1));
    let many = Plan { grows: Some(25), ..plan_ask("ask 25, named root", ask_25_small) };
    add(&in_one(many, one_root), &up_to(Fragmented, 25));
    add(&in_one(refused(plan_ask("ask 1, named root", ask_9), 10), one_root), &up_to(Fragmented, 1));
    let takes = plan("take 25, named root", "take", take, entries_25);
    add(&in_one(takes, its_root), &up_to(Fragmented, 0));

    for row in &mut rows {
        check(row, desks);
    }
    rows
}

/// Runs each case on each desk, and notes how many bytes a call can change.
fn check(row: &mut Row, desks: &[&Desk]) {
    for case in &row.cases {
        let mut first: Option<(Answer, Buffers)> = None;
        for desk in desks {
            let mut buffers = Buffers::of(case);
            let answer = (row.run)(desk, case, &mut buffers);
            let what = format!("{} on {} leases, {}", row.call, row.leases, row.shape.name());
            assert_eq!(answer.number, row.number, "{what}: {}", desk.name);
            if let Some(grows) = row.grows {
                assert_eq!(buffers.bytes, case.bytes + LEASE * grows, "{what}: {}", desk.name);
            }
            if let Some((other, left)) = &first {
                assert!(*other == answer && *left == buffers, "{what}: {} and {} differ", desks[0].name, desk.name);
            } else {
                row.restored = row.restored.max(case.bytes).max(buffers.bytes);
                row.restored_figures = row.restored_figures.max(used(&case.figures)).max(used(&buffers.figures));
                first = Some((answer, buffers));
            }
        }
    }
}

/// The bytes of a sheet up to the last row that is not an empty one.
fn used(figures: &[u8]) -> usize {
    figures.chunks(ROW).rposition(|row| row != EMPTY_ROW).map_or(0, |last| ROW * (last + 1))
}
