//! From the second implementation's types to the proved library's (`lent_..`), and back.
use second::block::Block;
use second::issue::Issue;
use second::order::{BlockCount, Order, Slot};
use second::pool::{Entry, Pool};
use second::report::Report;
use second::Refusal;

pub fn refusal(refused: ledger::Refusal) -> Refusal {
    Refusal {
        number: refused.number(),
        place: refused.place.0,
    }
}

pub fn lent_slot(slot: Slot) -> ledger::Slot {
    ledger::Slot(slot.0)
}

pub fn count(count: ledger::BlockCount) -> BlockCount {
    BlockCount(count.0)
}

pub fn lent_order(order: Order) -> ledger::Order {
    ledger::Order {
        display: order.display,
        expected: order.expected,
        new: order.new,
    }
}

fn order(order: ledger::Order) -> Order {
    Order {
        display: order.display,
        expected: order.expected,
        new: order.new,
    }
}

/// More orders than eight are left out, not their count.
pub fn lent_block(block: &Block) -> ledger::Block {
    let mut orders = ledger::Orders {
        count: block.orders.len() as u32,
        ..ledger::Orders::default()
    };
    for (place, order) in orders.list.iter_mut().zip(&block.orders) {
        *place = lent_order(*order);
    }
    ledger::Block {
        front: ledger::Front {
            link: block.link,
            orders,
            slot: lent_slot(block.slot),
            slot_signature: block.slot_signature,
        },
        block_signature: block.block_signature,
    }
}

pub fn block(block: &ledger::Block) -> Block {
    let front = &block.front;
    Block {
        link: front.link,
        orders: front.orders.as_slice().iter().copied().map(order).collect(),
        slot: Slot(front.slot.0),
        slot_signature: front.slot_signature,
        block_signature: block.block_signature,
    }
}

pub fn lent_pool(pool: &Pool) -> ledger::Pool {
    ledger::Pool {
        count: pool.count,
        entries: pool.entries.map(|entry| ledger::Entry {
            order: lent_order(entry.order),
            slot: lent_slot(entry.slot),
            depot: entry.depot,
        }),
    }
}

pub fn pool(pool: &ledger::Pool) -> Pool {
    Pool {
        count: pool.count,
        entries: pool.entries.map(|entry| Entry {
            order: order(entry.order),
            slot: Slot(entry.slot.0),
            depot: entry.depot,
        }),
    }
}

/// The pool is lent apart from the rest, since the other one borrows it.
pub fn lent_issue<'a>(issue: &Issue<'a>, pool: &'a ledger::Pool) -> ledger::Issue<'a> {
    ledger::Issue {
        genesis: issue.genesis,
        now: lent_slot(issue.now),
        pool,
        controller: issue.controller,
        slot_signature: ledger::Signature(issue.slot_signature),
    }
}

pub fn report(report: ledger::Report) -> Report {
    Report {
        held: count(report.held),
        settled: count(report.settled),
        settled_length: report.settled_length,
        releases: report.releases,
    }
}
