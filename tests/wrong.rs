//! Tests that cannot fail are worth nothing: the cases must notice each fault built into the model.

use crate::cases::beside::{beside_plan, Way};
use crate::cases::within::limits_about;
use crate::cases::{self, Tried};
use crate::product::{Product, Unread};
use crate::compare::{plan_filled, plan_to_collector_filled};
use crate::model::{Model, Wrong, RIGHT};
use crate::optimality;
use crate::random::Random;
use crate::rules::{Entries, Listing, Table, NO_DISTANCE};
use crate::shapes::{self, SHAPES};
use std::fs;
use std::os::unix::fs::PermissionsExt;

/// Runs the groups on the faulty model until one fails that the right model passes: its name.
pub fn noticed(fault: Wrong, seed: u64) -> Result<&'static str, String> {
    let faulty = Model { wrong: Some(fault) };
    for group in cases::groups() {
        let passes = |model: &Model| (group.run)(model, &mut Random::new(seed)).is_ok();
        if !passes(&faulty) && passes(&RIGHT) {
            return Ok(group.name);
        }
    }
    Err("no case notices it".to_string())
}

/// The faults that break a promise about distances, links, prices, "no route", the horizon or links that are down.
pub const AGAINST_PROMISES: [Wrong; 10] = [
    Wrong::TieByFirstMet,
    Wrong::TieByLatest,
    Wrong::PricesAreDistances,
    Wrong::HorizonFromRawPrice,
    Wrong::RawPrices,
    Wrong::PathShortenedAtOrigin,
    Wrong::PlaceIsNode,
    Wrong::DownLinksUsed,
    Wrong::DownLinksUnmarked,
    Wrong::DownLinksClosedUp,
];

/// The faults that tell wrongly whether a node is within a limit.
pub const AGAINST_LIMITS: [Wrong; 7] = [
    Wrong::LimitItselfPassed,
    Wrong::LimitOnHorizon,
    Wrong::LimitOnEveryPrice,
    Wrong::LimitCutTo32Bits,
    Wrong::PassedIsWithin,
    Wrong::NoWalkRefused,
    Wrong::DownLinksWithin,
];

/// The faults that break a promise about plans to a collector, or list something else than the walk of such a plan.
pub const AGAINST_COLLECTOR: [Wrong; 7] = [
    Wrong::ColumnsNotExchanged,
    Wrong::CollectorTieByLatest,
    Wrong::CollectorPricesAreDistances,
    Wrong::CollectorDownLinksUsed,
    Wrong::SenderPlaceIsNode,
    Wrong::CollectorListedFirst,
    Wrong::EntryNotMirrored,
];

/// The faults that tell wrongly, beside the fresh path of a finished plan, which path is kept.
pub const AGAINST_KEEPING: [Wrong; 16] = [
    Wrong::EqualStandingDropped,
    Wrong::StepByLongest,
    Wrong::StepByFirst,
    Wrong::StepByLast,
    Wrong::StepOverDown,
    Wrong::StepBackwards,
    Wrong::LongestStepAbsent,
    Wrong::RepeatNeedsNoLoop,
    Wrong::LastStepUncounted,
    Wrong::TotalsCutTo32Bits,
    Wrong::StandingStartUncompared,
    Wrong::StandingEndUncompared,
    Wrong::StandingRefused,
    Wrong::EmptyStandingKept,
    Wrong::LoneNodeRefused,
    Wrong::FreshCountGiven,
];

/// Random tables until one is judged to be answered wrongly.
fn tables_until(random: &mut Random, wrong: impl Fn(&Table, &mut Random) -> bool) -> Tried {
    for tried in 1..=20_000 {
        let shape = random.pick(&SHAPES);
        let n = random.from(1, 12);
        let table = shapes::table(random, shape, n);
        if wrong(&table, random) {
            return Ok(tried);
        }
    }
    Err("the optimality check accepts it".to_string())
}

pub fn noticed_by_optimality(fault: Wrong, random: &mut Random) -> Tried {
    let faulty = Model { wrong: Some(fault) };
    tables_until(random, |table, _| {
        let (plan, filled) = plan_filled(&faulty, table);
        optimality::check(table, &plan, &filled).is_err()
    })
}

pub fn noticed_by_distances(fault: Wrong, random: &mut Random) -> Tried {
    let faulty = Model { wrong: Some(fault) };
    tables_until(random, |table, random| {
        let node = random.below(table.n as usize) as u16;
        let limit = random.pick(&limits_about(table, &[node]));
        optimality::check_limit(table, node, limit, &faulty.within(table, node, limit)).is_err()
    })
}

pub fn noticed_to_collector(fault: Wrong, random: &mut Random) -> Tried {
    let faulty = Model { wrong: Some(fault) };
    tables_until(random, |table, random| {
        let table = table.exchanged();
        let (plan, filled) = plan_to_collector_filled(&faulty, &table);
        let node = random.below(table.n as usize) as u16;
        let mut output = vec![0; table.n as usize];
        let Table { origin, tails, heads, .. } = table.clone();
        let listing = Listing { origin, node, tails, heads, tree: filled.tree.clone() };
        let count = faulty.list_to_collector(&listing, &mut output).count as usize;
        optimality::check_to_collector(&table, &plan, &filled).is_err()
            || filled.distances[node as usize] != NO_DISTANCE
                && optimality::check_listed_to_collector(&table, &filled, node, &output[..count]).is_err()
    })
}

pub fn noticed_beside_plans(fault: Wrong, random: &mut Random) -> Tried {
    let faulty = Model { wrong: Some(fault) };
    let ask = |table: &Table, standing: &[u16], fresh: &[u16]| Ok(faulty.keep(table.n, table.columns(), standing, fresh));
    tables_until(random, |table, random| {
        let (way, table) = random.pick(&[(Way::FromOrigin, table.clone()), (Way::ToCollector, table.exchanged())]);
        beside_plan(&faulty, &ask, way, random, &table).is_err()
    })
}

/// A program that a signal ends, beside the tests' own.
fn dies_by(signal: &str) -> std::io::Result<Product> {
    let program = std::env::current_exe()?.with_file_name(format!("dies-by-{signal}"));
    fs::write(&program, format!("#!/bin/sh\nkill -{signal} $$\n"))?;
    fs::set_permissions(&program, fs::Permissions::from_mode(0o755))?;
    Ok(Product { program })
}

/// On an output that cannot be written a program may end by SIGPIPE, and by no other signal.
pub fn signals_noticed() -> Tried {
    for output in [Unread::Closed, Unread::Abandoned, Unread::Full] {
        for (signal, right) in [("PIPE", true), ("SEGV", false), ("ABRT", false), ("TERM", false)] {
            let product = dies_by(signal).map_err(|error| error.to_string())?;
            if product.end_unread(&[], output).is_ok() != right {
                return Err(format!("output {output:?}: a program that SIG{signal} ends is judged wrongly"));
            }
        }
    }
    Ok(12)
}
