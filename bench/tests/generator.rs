//! What the generator makes: the same for the same seed, deep where it should be, and damaged where it should be.

use celimbuk_bench::random::{history, script, Random};
use celimbuk_bench::twin::allocator::Allocator;
use celimbuk_bench::twin::best_fit::BestFit;
use celimbuk_bench::twin::call::{Call, NAMES};
use celimbuk_bench::twin::fault::Fault;
use celimbuk_bench::twin::flat::Flat;
use celimbuk_bench::twin::machine::Machine;
use celimbuk_bench::twin::memory::TaggedMemory;
use celimbuk_bench::twin::next_fit::NextFit;
use celimbuk_bench::twin::paged::Paged;
use celimbuk_bench::twin::quota::Quota;
use celimbuk_bench::twin::reader::{read_line, read_script};
use celimbuk_bench::twin::run::run;

/// A deep history on a machine of this many granules, with its outcomes.
fn deep_run(seed: u64, granules: usize, length: usize) -> Vec<(Call, Result<u32, Fault>)> {
    let (mut bytes, mut tags) = (vec![0; 16 * granules], vec![0; granules / 8]);
    let (mut lengths, mut used) = (vec![0; granules], vec![0; granules / 8]);
    let mut fresh = Machine::new(Flat::new(&mut bytes, &mut tags), BestFit::new(&mut lengths, &mut used));
    let calls = history::deep(&mut Random::new(seed), &mut fresh, length);
    let mut fresh = Machine::new(Flat::new(&mut bytes, &mut tags), BestFit::new(&mut lengths, &mut used));
    calls.into_iter().map(|call| (call, fresh.perform(call))).collect()
}

#[test]
fn deep_histories_are_accepted_and_reach_every_denial_of_a_machine() {
    let mut accepted = [0; NAMES.len()];
    let mut denied = [0; 20];
    let mut sweeps = 0;
    for seed in 0..60 {
        for (call, outcome) in deep_run(seed, [32, 112, 1024][seed as usize % 3], 2_000) {
            match outcome {
                Ok(answer) => {
                    accepted[call.numbers()[0] as usize] += 1;
                    sweeps += usize::from(matches!(call, Call::Step { .. }) && answer == 0);
                }
                Err(fault) => denied[fault.code() as usize] += 1,
            }
        }
    }
    println!("accepted {:?}, denied {denied:?}, sweeps {sweeps}", NAMES.iter().zip(accepted).collect::<Vec<_>>());
    let (all_accepted, all_denied) = (accepted.iter().sum::<usize>(), denied.iter().sum::<usize>());
    assert!(all_accepted > 3 * all_denied);
    assert!(accepted.iter().all(|&count| count > 500));
    assert!(sweeps > 500);
    // All but TEXT and SIZES, which no history on parts of one size meets.
    assert!((1..=17).all(|code| denied[code] > 0));
}

#[test]
fn a_seed_makes_one_script() {
    for make in [script::deep, script::damaged] {
        assert_eq!(make(&mut Random::new(7), 300), make(&mut Random::new(7), 300));
        assert_ne!(make(&mut Random::new(7), 300), make(&mut Random::new(8), 300));
    }
}

#[test]
fn texts_and_numbers_read_back() {
    for (call, _) in deep_run(1, 32, 2_000) {
        assert_eq!(Call::from_numbers(call.numbers()), Some(call));
        if call.numbers()[1..].iter().all(|&operand| operand <= 31) {
            assert_eq!(read_line(call.to_string().as_bytes()), Ok(call));
        }
    }
}

#[test]
fn damaged_scripts_stop_at_every_word() {
    let mut stopped = [0; 10];
    for seed in 0..300 {
        let script = script::damaged(&mut Random::new(seed), 200);
        for (_, reading) in read_script(&script).into_iter().flatten() {
            if let Err(word) = reading {
                stopped[word] += 1;
            }
        }
        let mut out = Vec::new();
        run(&script, &mut out).expect("a vector takes all that is written");
    }
    println!("stopped at {stopped:?}");
    assert!(stopped[1..=8].iter().all(|&count| count > 0));
}

#[test]
fn denied_calls_change_nothing() {
    let granules = 112;
    let history: Vec<Call> = deep_run(5, granules, 3_000).into_iter().map(|(call, _)| call).collect();
    let (mut bytes, mut tags, mut counts) = (vec![0; 16 * granules], vec![0; granules / 8], vec![0; granules / 16]);
    let (mut used, mut firsts) = (vec![0; granules / 8], vec![0; granules / 8]);
    let memory = Paged::new(&mut bytes, &mut tags, &mut counts);
    let mut machine = Machine::new(memory, Quota::new(NextFit::new(&mut used, &mut firsts), 90));
    let mut before = state(&machine);
    for call in history::damaged(&mut Random::new(5), &history) {
        let denied = machine.perform(call).is_err();
        let after = state(&machine);
        assert!(!denied || before == after, "{call:?}");
        before = after;
    }
}

/// Everything that a machine shows.
fn state<M: TaggedMemory, A: Allocator>(machine: &Machine<M, A>) -> impl PartialEq {
    let (memory, allocator, quarantine) = (machine.memory(), machine.allocator(), machine.quarantine());
    let all = memory.granules();
    (
        (0..16 * all).map(|address| memory.load_byte(address)).collect::<Vec<_>>(),
        (0..all).map(|granule| (memory.load_granule(granule), memory.may_hold(granule))).collect::<Vec<_>>(),
        (0..all).map(|granule| allocator.cell(granule)).collect::<Vec<_>>(),
        (allocator.mark(), allocator.taken(), quarantine.sweep()),
        (quarantine.painted().to_vec(), quarantine.waiting().to_vec(), *machine.registers()),
    )
}
