use smblease_std::prelude::{String, format};
use smblease_std::test::passes;
mod idle;
mod passages;
mod reads;
mod runs;
mod verdicts;
mod words;

use crate::running::words::{joined, read, record, sent, start, took};
use smblease::proved::lease_world::{Judge, Rule, RunFault, Verdict, judge_each};
use smblease_std::alloc::Global;
use smblease_std::test::Fail;

// The sixth fact shows other bytes than the file had when the last message was sent, and then nothing mends it.
#[test]
fn a_judge_tells_a_verdict_at_any_time() {
    passes(|| -> Result<(), Fail> {
        let alloc = Global;
        let facts = record(
            alloc,
            [start(alloc, 1, b"abc"), joined(1), sent(1), took(1), read(alloc, 1, 1, b"abc"), read(alloc, 1, 1, b"abd"), took(2)],
        )?;
        let stale = Verdict::Unsafe { place: 6, rule: Rule::FreshCachedReads };
        let mut judge = Judge::new(alloc);
        let mut in_place = Judge::new(alloc);
        assert_eq!(judge.verdict(), Verdict::Safe);
        for (place, fact) in facts.iter().enumerate() {
            judge = judge.take(fact)?;
            in_place.add(fact)?;
            let verdict = if place < 5 { Verdict::Safe } else { stale };
            assert_eq!(judge.verdict(), verdict);
            assert_eq!(in_place.verdict(), verdict);
        }
        Ok(())
    })
}

#[test]
fn facts_are_judged_one_by_one() {
    passes(|| -> Result<(), Fail> {
        let alloc = Global;
        let facts = record(alloc, [joined(1), took(1), joined(1)])?;
        assert_eq!(judge_each(alloc, facts.iter())?, Verdict::Malformed { place: 2 });
        assert_eq!(judge_each(alloc, facts.iter().take(1))?, Verdict::Safe);
        Ok(())
    })
}

fn written(alloc: Global, fault: RunFault) -> Result<String, Fail> {
    let text = format!(in alloc; "{fault}")?;
    Ok(text)
}

#[test]
fn faults_of_runs_have_numbers() {
    passes(|| -> Result<(), Fail> {
        let alloc = Global;
        assert_eq!(written(alloc, RunFault::BadSetup)?.as_str(), "1 BadSetup");
        assert_eq!(written(alloc, RunFault::TooMany)?.as_str(), "2 TooMany");
        assert_eq!(written(alloc, RunFault::Memory)?.as_str(), "3 Memory");
        Ok(())
    })
}

#[test]
fn rules_have_numbers() {
    assert_eq!(Rule::OneWriteCache.number(), 1);
    assert_eq!(Rule::FreshCachedReads.number(), 2);
    assert_eq!(Rule::NoLateWrite.number(), 3);
    assert_eq!(Rule::NoFalseDone.number(), 4);
}
