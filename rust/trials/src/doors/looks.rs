//! What may be asked of a common record: the projection and the bound of every
//! position that it keeps and of those beside, and its order into lists of
//! every room that matters.

use reference::{Common, Table, LATEST_TIME};

use crate::doors::beside::Beside;
use crate::doors::model::words::{common_words, table_words};
use crate::doors::{Call, Lent, Room, Told};
use crate::random::Random;

pub fn look(beside: &mut Beside, random: &mut Random, table: &Table, common: &Common) -> Result<(), String> {
    let mut lent = Lent {
        table: Room::holding(&table_words(table)),
        state: Room::holding(&common_words(common)),
        ..Lent::default()
    };
    let (base, length) = (common.base(), common.length());
    let beyond = [0, base.saturating_sub(1), length + 1, u64::MAX];
    for position in (base..=length).chain(beyond) {
        beside.call(Call::Projection { position }, &lent)?;
        let time = time(random, table, common, position);
        let (told, _) = beside.call(Call::Bound { position, time }, &lent)?;
        if base < position && position <= length && time <= LATEST_TIME {
            note_bound(beside, table, common, position, time, &told);
        }
    }
    let count = common.jobs().len();
    for room in [count.saturating_sub(1), count, count + 3, Common::PLACES + 1] {
        lent.order = Room::holding(&vec![7; room]);
        beside.call(Call::Order, &lent)?;
        beside.reached.note_if(room == count && count > 0, "order: room for the jobs kept and no more");
        beside.reached.note_if(room + 1 == count, "order: room for one less");
    }
    Ok(())
}

/// A time at which the bound of a position begins to hold for a task, or one
/// about 2^48 or further.
fn time(random: &mut Random, table: &Table, common: &Common, position: u64) -> u64 {
    let kept = position.clamp(common.base(), common.length());
    let projection = common.projection(table, kept);
    let slack = random.pick(table.tasks()).slack;
    let edge = random.weighted(&[(12, projection.saturating_sub(slack)), (1, LATEST_TIME + 1), (1, 0)]);
    let far = random.widest();
    let near = random.about(edge);
    random.weighted(&[(30, near), (1, far)])
}

fn note_bound(beside: &mut Beside, table: &Table, common: &Common, position: u64, time: u64, told: &Told) {
    let projection = common.projection(table, position);
    let allowed = |task: usize| common.earliest_at(task, time) + table.tasks()[task].slack;
    let higher = 0..common.task_at(position);
    let exact = higher.clone().any(|task| allowed(task) == projection);
    beside.reached.note_if(told.refusal() == 0 && exact, "bound: met exactly");
    let by_one = higher.clone().map(|task| projection.saturating_sub(allowed(task))).max() == Some(1);
    beside.reached.note_if(told.refusal() == 9 && by_one, "bound: broken by one");
    let Told::Value { value, .. } = told else { return };
    let lower = higher.into_iter().any(|task| task as u64 > *value && allowed(task) < projection);
    beside.reached.note_if(told.refusal() == 9 && lower, "bound: broken by several, the first told");
}
