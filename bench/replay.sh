# What the measurements of deletions share. A script sources this after `change_setup.sh`: it adds to the program what
# takes records out of a house of at most 20,000 and asks the same queries by `range` alone beside it: the search for the
# record and one at it, before it is taken out; and, over the tree after it, one at each lost core, at each record whose
# anchor was lost, and at each core that the growth of the parts asked, which it replays.
cat >>"$program/src/main.rt" <<'RATTLE'

// The labels, or the anchors, that the books give the numbers; 0 for none.
fn labels_of<I>(alloc: Global, house: &House<I>) -> Result<Vec<Number>, AllocError> {
    let mut labels = Vec::new(alloc);
    for number in 0..20001u32 {
        labels.push(house.labels.label_of(number).unwrap_or(0))?;
    }
    Ok(labels)
}

fn anchors_of<I>(alloc: Global, house: &House<I>) -> Result<Vec<Number>, AllocError> {
    let mut anchors = Vec::new(alloc);
    for number in 0..20001u32 {
        anchors.push(house.counts.anchor_of(number).unwrap_or(0))?;
    }
    Ok(anchors)
}

fn at(list: &[Number], number: Number) -> Number {
    let place = number as usize;
    if place < list.len() { list[place] } else { 0 }
}

// What the books said before a deletion, and what it asked.
#[derive(Drop)]
struct Replay {
    eps: u32,
    labels: Vec<Number>,
    anchors: Vec<Number>,
    asked: Vec<Number>,
    loose: Vec<Number>,
    seeds: Vec<(Number, Number)>,
}

fn replay_of<I>(alloc: Global, house: &House<I>, eps: u32) -> Result<Replay, AllocError> {
    Ok(Replay {
        eps,
        labels: labels_of(alloc, house)?,
        anchors: anchors_of(alloc, house)?,
        asked: Vec::new(alloc),
        loose: Vec::new(alloc),
        seeds: Vec::new(alloc),
    })
}

// Sorts the numbers near a lost core into seeds and records that hung on it.
fn look<I>(
    house: &House<I>,
    replay: &mut Replay,
    lost: Number,
    near: &[Number],
) -> Result<(), AllocError> {
    let label = at(&replay.labels, lost);
    for i in 0..near.len() {
        if house.counts.is_core(near[i]) {
            if at(&replay.labels, near[i]) == label {
                replay.seeds.push((label, near[i]))?;
            }
        } else if at(&replay.anchors, near[i]) == lost {
            replay.loose.push(near[i])?;
        }
    }
    Ok(())
}

// Looks around the record that is gone and around each lost core, which is asked.
fn look_all<M: Metric, I: RangeIndex<M>, L: Ledger>(
    house: &House<I>,
    replay: &mut Replay,
    gone: Number,
    around: &[Number],
    near: &mut Numbers,
    steps: &mut Steps<L>,
) -> Result<(), AllocError>
    requires { Fits (I.width house.now.index) (I.contents house.now.index) house.now.records
        house.now.counts house.now.labels }
{
    if at(&replay.labels, gone) != 0 {
        look(house, replay, gone, around)?;
    }
    for i in 0..around.len() {
        let lost = around[i];
        if lost != gone && at(&replay.labels, lost) != 0 && !house.counts.is_core(lost) {
            query::<M, I, L>(house, replay.eps, lost, near, steps)?;
            replay.asked.push(lost)?;
            look(house, replay, lost, near.as_slice())?;
        }
    }
    Ok(())
}

// The seeds with a label, each once, rising.
fn seeds_with(alloc: Global, seeds: &[(Number, Number)], label: Number) -> Result<IndexSet<Number>, AllocError> {
    let mut numbers = Vec::new(alloc);
    for i in 0..seeds.len() {
        if seeds[i].0 == label {
            numbers.push(seeds[i].1)?;
        }
    }
    numbers.sort_unstable();
    let mut set = IndexSet::new(alloc);
    for k in 0..numbers.len() {
        let _ = set.insert(numbers[k])?;
    }
    Ok(set)
}

// Whether a seed hasn't come.
fn is_missing(seeds: &IndexSet<Number>, order: &IndexSet<Number>) -> bool {
    let list = seeds.as_slice();
    for i in 0..list.len() {
        if !order.contains(&list[i]) {
            return true;
        }
    }
    false
}

// Takes in the cores near one that had the label: the seeds alone, or all.
fn take_in<I>(
    house: &House<I>,
    labels: &[Number],
    label: Number,
    seeds: &IndexSet<Number>,
    all: bool,
    near: &[Number],
    order: &mut IndexSet<Number>,
) -> Result<(), AllocError> {
    for i in 0..near.len() {
        let number = near[i];
        let is_member = at(labels, number) == label && house.counts.is_core(number);
        if is_member && (all || seeds.contains(&number)) {
            let _ = order.insert(number)?;
        }
    }
    Ok(())
}

// Grows the parts of a cluster as a split does, and notes which cores are asked.
fn grow<M: Metric, I: RangeIndex<M>, L: Ledger>(
    alloc: Global,
    house: &House<I>,
    replay: &mut Replay,
    label: Number,
    near: &mut Numbers,
    steps: &mut Steps<L>,
) -> Result<(), AllocError>
    requires { Fits (I.width house.now.index) (I.contents house.now.index) house.now.records
        house.now.counts house.now.labels }
{
    let seeds = seeds_with(alloc, &replay.seeds, label)?;
    let starts = Vec::from_slice(alloc, seeds.as_slice())?;
    if starts.len() < 2 {
        return Ok(());
    }
    let mut order = IndexSet::new(alloc);
    let mut done = 0usize;
    for k in 0..starts.len() {
        if !is_missing(&seeds, &order) {
            return Ok(());
        }
        let _ = order.insert(starts[k])?;
        for _ in 0..20000u32 {
            if done >= order.as_slice().len() || !is_missing(&seeds, &order) {
                break;
            }
            let core = order.as_slice()[done];
            query::<M, I, L>(house, replay.eps, core, near, steps)?;
            replay.asked.push(core)?;
            take_in(house, &replay.labels, label, &seeds, false, near.as_slice(), &mut order)?;
            take_in(house, &replay.labels, label, &seeds, true, near.as_slice(), &mut order)?;
            done = done.wrapping_add(1);
        }
    }
    Ok(())
}

// Grows the parts of each cluster that lost a core.
fn grow_all<M: Metric, I: RangeIndex<M>, L: Ledger>(
    alloc: Global,
    house: &House<I>,
    replay: &mut Replay,
    near: &mut Numbers,
    steps: &mut Steps<L>,
) -> Result<(), AllocError>
    requires { Fits (I.width house.now.index) (I.contents house.now.index) house.now.records
        house.now.counts house.now.labels }
{
    let mut labels = IndexSet::new(alloc);
    for i in 0..replay.seeds.len() {
        let _ = labels.insert(replay.seeds[i].0)?;
    }
    let labels = Vec::from_slice(alloc, labels.as_slice())?;
    for j in 0..labels.len() {
        grow::<M, I, L>(alloc, house, replay, labels[j], near, steps)?;
    }
    let loose = Vec::from_slice(alloc, &replay.loose)?;
    for k in 0..loose.len() {
        replay.asked.push(loose[k])?;
    }
    Ok(())
}

/// Nanoseconds of the deletions and of the same queries alone, and how many queries.
#[derive(Drop)]
struct Times {
    deletions: u128,
    queries: u128,
    asked: usize,
}

// Takes these records out, and asks the same queries around each.
fn fewer<M: Metric, I: RangeIndex<M>, L: Ledger>(
    rt: &HostRuntime,
    house: &mut House<I>,
    eps: u32,
    numbers: &[Number],
    steps: &mut Steps<L>,
) -> io::Result<Times>
    requires { Fits (I.width house.old.index) (I.contents house.old.index) house.old.records
        house.old.counts house.old.labels }
{
    let alloc = rt.alloc();
    let mut near = Numbers::new(alloc);
    let mut other = Numbers::new(alloc);
    let mut deletions = 0u128;
    let mut queries = 0u128;
    let mut asked = 0usize;
    for &number in numbers {
        let mut replay = replay_of(alloc, house, eps)?;
        let start = Instant::now(rt)?;
        query::<M, I, L>(house, 0, number, &mut near, steps)?;
        query::<M, I, L>(house, eps, number, &mut near, steps)?;
        queries = queries.wrapping_add(start.elapsed(rt)?.as_nanos());
        let start = Instant::now(rt)?;
        let _ = take_out::<M, I, L>(alloc, house, eps, number, steps)?;
        deletions = deletions.wrapping_add(start.elapsed(rt)?.as_nanos());
        look_all::<M, I, L>(house, &mut replay, number, near.as_slice(), &mut other, steps)?;
        grow_all::<M, I, L>(alloc, house, &mut replay, &mut other, steps)?;
        asked = asked.wrapping_add(replay.asked.len());
        let more = ask_all::<M, I, L>(rt, house, eps, &replay.asked, &mut other, steps)?;
        queries = queries.wrapping_add(more);
    }
    Ok(Times {
        deletions,
        queries,
        asked,
    })
}
RATTLE
sed -i 's/^use int_metric::{Hamming, L1};/use indexmap::IndexSet;\nuse int_metric::L1;/' "$program/src/main.rt"
sed -i 's/^change_speed: /&indexmap /' "$work/crates.txt"
keeps_fit fewer

# Counts distances in the place of nanoseconds, in a copy that isn't proved: each count of a distance is kept in memory
# too, and the program's clock reads it. The lines are in "$work/here", as those of `measure`.
count_distances() {
    sed -i 's/^    share: Share<L>,$/&\n    made: u64,/
        s/Steps { book, share }/Steps { book, share, made: 0 }/
        s/^ *self\.book\.add(&mut self\.share, \(.*\));$/&\n        self.made = self.made.wrapping_add(\1);/
        s|^    /// Counts one distance\.$|    /// The count.\n    pub fn made(\&self) -> u64 {\n        self.made\n    }\n\n&|' \
        "$work/crates/vec_record/src/steps.rt"
    sed -i 's/Instant::now(rt)?/steps.made()/; /^use std::time::Instant;$/d
        s/start\.elapsed(rt)?\.as_nanos()/u128::from(steps.made().wrapping_sub(start))/' "$program/src/main.rt"
    (cd "$program" && rt try --steps 1 --seconds 3600 >"$work/here" 2>"$work/log") || { cat "$work/log"; exit 1; }
    cd "$work"
}
