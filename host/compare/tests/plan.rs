//! The core's plans against the second implementation's, and against the core's own gear sheet for each vehicle by itself.

use std::collections::BTreeMap;
use std::path::Path;

use compare::gear::{accepted_vehicle, any_vehicle};
use compare::plan::{by_core, by_plain, case, numbers_of, one_by_one, Answer, Case, Lent};
use compare::random::Random;
use compare::{cases, directed};
use ylhovesko::gear::Vehicle;
use ylhovesko::plan::{plan, SHEET};

/// What both say of a case, and that it is what the gear sheet says of each vehicle by itself; a call that is refused changes nothing.
fn planned(case: &Case, words: &str) -> Answer {
    let (core, plain) = (by_core(case), by_plain(case));
    assert!(core == plain, "{words}: {case}\ncore  {core:?}\nplain {plain:?}");
    match core.told[0] {
        0 => assert!(core == one_by_one(case), "{words}: {case}\nplan {core:?}"),
        _ => assert_eq!(core.lent, case.lent, "{words}: {case}"),
    }
    core
}

/// A case with the room that it takes, and noise in it.
fn of_vehicles(trace: &[u8], vehicles: &[Vehicle]) -> Case {
    let rooms = [(trace.len() - 8) / 2 * vehicles.len(), 2 * vehicles.len()];
    let sheets = vehicles.iter().flat_map(numbers_of).collect();
    Case { trace: trace.to_vec(), sheets, lent: Lent::noise(&mut Random::new(1), rooms) }
}

/// Random plans, a fifth of YLHOVESKO_CASES. A difference is shown as a line of vectors/directed_plan.txt, with the case's seed.
#[test]
fn random_plans() {
    let (mut wholes, mut vehicles, mut blocks) = (BTreeMap::new(), BTreeMap::new(), BTreeMap::new());
    let some = cases("YLHOVESKO_CASES", 100_000) / 5;
    for seed in 0..some {
        let case = case(seed);
        let answer = planned(&case, &format!("seed {seed}"));
        *wholes.entry(answer.told[0]).or_insert(0) += 1;
        let all = answer.planned(&case);
        for block in all.chunks(16) {
            let refused = block.iter().filter(|planned| planned.told[0] != 0).count();
            *blocks.entry((block.len() == 16, refused > 0, refused < block.len())).or_insert(0) += 1;
        }
        all.iter().for_each(|planned| *vehicles.entry(planned.told[0]).or_insert(0) += 1);
    }
    println!("plans by refusal number: {wholes:?}; their vehicles: {vehicles:?}; blocks by whether full, with refused and with accepted ones: {blocks:?}");
    if some >= 20_000 {
        let enough = [(0, 10_000), (1, 300), (2, 30), (3, 100), (4, 500), (8, 1000)];
        assert!(enough.iter().all(|(number, least)| wholes.get(number).is_some_and(|count| count >= least)), "hardly met: {wholes:?}");
        let enough = [(0, 50_000), (5, 5000), (6, 500), (7, 500), (9, 1000), (20, 2000)];
        assert!(enough.iter().all(|(number, least)| vehicles.get(number).is_some_and(|count| count >= least)), "hardly met: {vehicles:?}");
        let kinds = [true, false].into_iter().flat_map(|full| [(full, true, true), (full, true, false), (full, false, true)]);
        assert!(kinds.into_iter().all(|kind| blocks.get(&kind).is_some_and(|count| *count >= 200)), "hardly met: {blocks:?}");
    }
}

/// Every trace of the gear sheet's directed cases, with the vehicles of all cases that have it, each of which has been answered there.
#[test]
fn directed_rows_side_by_side() {
    let mut by_trace: BTreeMap<Vec<u8>, Vec<Vehicle>> = BTreeMap::new();
    for directed in directed::gear::cases() {
        by_trace.entry(directed.case.trace).or_default().push(directed.case.vehicle);
    }
    for (trace, vehicles) in &by_trace {
        if trace.len() >= 8 {
            planned(&of_vehicles(trace, vehicles), "directed");
            // the other way round, so that each comes to stand beside others, and in another block where there are two
            let turned: Vec<Vehicle> = vehicles.iter().rev().cycle().take(vehicles.len() + 5).copied().collect();
            planned(&of_vehicles(trace, &turned), "directed, turned");
        }
    }
}

/// The traces of demo/, by name.
fn demo_traces() -> Vec<(String, Vec<u8>)> {
    let folder = Path::new(env!("CARGO_MANIFEST_DIR")).join("../../demo");
    let files = std::fs::read_dir(folder).unwrap().map(|entry| entry.unwrap().path());
    let mut traces: Vec<_> = files.filter(|path| path.extension().is_some_and(|extension| extension == "wtr")).collect();
    traces.sort();
    traces.iter().map(|path| (path.display().to_string(), std::fs::read(path).unwrap())).collect()
}

/// The demo's traces with some hundred machines, accepted and refused ones of both rule sets.
#[test]
fn demo_traces_with_many_machines() {
    let mut vehicles: Vec<Vehicle> = (0..150).map(any_vehicle).collect();
    vehicles.extend((0..150).map(accepted_vehicle));
    vehicles.extend((150..250).map(|seed| Vehicle { rule_set: 2, ..accepted_vehicle(seed) }));
    let traces = demo_traces();
    assert_eq!(traces.len(), 10);
    for (name, trace) in traces {
        let answer = planned(&of_vehicles(&trace, &vehicles), &name);
        let accepted = answer.lent.answers.as_chunks().0.iter().filter(|told| **told == [0, 0]).count();
        assert!((100..400).contains(&accepted), "{name}: {accepted}");
    }
}

/// Every list of one to three of these vehicles on a short trace, behind so many others that it begins or crosses a block.
#[test]
fn every_short_list() {
    let trace = &directed::plan::cases()[0].case.trace.clone();
    let kinds = [0, 1, 2, 3].map(accepted_vehicle);
    let kinds = [kinds[0], kinds[1], Vehicle { mass: 0, ..kinds[2] }, Vehicle { rule_set: 2, ..kinds[3] }];
    for (length, before) in (1..=3).flat_map(|length| [0, 1, 13, 14, 15, 16].map(|before| (length, before))) {
        for number in 0..4_usize.pow(length) {
            let listed = (0..length).map(|place| kinds[number / 4_usize.pow(place) % 4]);
            let vehicles: Vec<Vehicle> = std::iter::repeat_n(kinds[0], before).chain(listed).collect();
            planned(&of_vehicles(trace, &vehicles), &format!("{before} before list {number} of {length}"));
        }
    }
}

/// More vehicles than 16 bits count, and rows and answers of more bytes than that.
#[test]
fn more_than_16_bits() {
    let stop = compare::trace::house_file(&[0; 4]);
    let vehicles: Vec<Vehicle> = (0..64).map(any_vehicle).cycle().take(if ylhovesko::LINKED { 65_536 + 17 } else { 100 }).collect();
    let case = of_vehicles(&stop, &vehicles);
    assert_eq!(by_core(&case), one_by_one(&case));
    let long = compare::trace::house_file(&[44, 1, 2, 0].repeat(2000));
    let case = of_vehicles(&long, &vehicles[..40]);
    assert!(case.lent.rows.len() > 65_536);
    planned(&case, "2,000 seconds");
}

/// The plan as one has the rows of the lent one, and nothing of a vehicle that is refused.
#[test]
fn a_plan_as_one() {
    let vehicles: Vec<Vehicle> = (0..40).map(any_vehicle).collect();
    for (name, trace) in demo_traces() {
        let answer = by_core(&of_vehicles(&trace, &vehicles));
        let whole = plan(&trace, &vehicles).unwrap();
        let rows: Vec<_> =
            whole.rows().map(|row| row.map(<[[u8; 2]]>::as_flattened).map_err(|refusal| [refusal.number, refusal.at])).collect();
        let by_lent = answer.planned(&of_vehicles(&trace, &vehicles));
        assert_eq!(rows.len(), by_lent.len());
        for (row, planned) in rows.iter().zip(&by_lent) {
            assert_eq!(row.ok(), planned.row.as_deref(), "{name}");
            assert_eq!(row.err().unwrap_or([0; 2]), planned.told, "{name}");
        }
    }
    assert_eq!(plan(&demo_traces()[0].1, &[]).unwrap().rows().count(), 0);
    assert_eq!(SHEET * 4, size_of::<Vehicle>());
}
