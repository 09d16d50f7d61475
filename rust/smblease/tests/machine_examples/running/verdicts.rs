//! Verdicts on short records.

use smblease_std::alloc::Global;
use smblease_std::prelude::vec;
use smblease_std::test::passes;

use crate::running::words::{
    believes, buffered, changed, dropped, expired, joined, opened, patch, read, record, sent, settled, start, strayed, through,
    took,
};
use smblease::proved::lease_client::Settlement;
use smblease::proved::lease_state::{ClientNo, FileNo};
use smblease::proved::lease_world::{Fact, Rule, Verdict, judge, judge_each};
use smblease_std::test::Fail;

fn breaks(place: u64, rule: Rule) -> Verdict {
    Verdict::Unsafe { place, rule }
}

fn malformed(place: u64) -> Verdict {
    Verdict::Malformed { place }
}

#[test]
fn nothing_is_wrong_with_no_facts() {
    passes(|| -> Result<(), Fail> {
        assert_eq!(judge(Global, &[])?, Verdict::Safe);
        Ok(())
    })
}

#[test]
fn two_caches_of_which_one_writes() {
    passes(|| -> Result<(), Fail> {
        let alloc = Global;
        let facts = record(alloc, [start(alloc, 1, b""), joined(1), joined(2), believes(1, 1, 5), believes(2, 1, 1)])?;
        assert_eq!(judge(alloc, &facts)?, breaks(5, Rule::OneWriteCache));

        // Two clients that cache reads do no harm, nor is a belief of another file.
        let facts = record(
            alloc,
            [
                start(alloc, 1, b""),
                start(alloc, 2, b""),
                joined(1),
                joined(2),
                believes(1, 1, 5),
                believes(2, 2, 1),
                believes(1, 1, 3),
                believes(2, 1, 3),
            ],
        )?;
        assert_eq!(judge(alloc, &facts)?, Verdict::Safe);
        Ok(())
    })
}

#[test]
fn a_belief_outlives_a_lost_connection() {
    passes(|| -> Result<(), Fail> {
        let alloc = Global;
        let facts = record(
            alloc,
            [start(alloc, 1, b""), joined(1), joined(2), believes(1, 1, 5), dropped(1), believes(2, 1, 1), joined(1)],
        )?;
        assert_eq!(judge_each(alloc, facts.iter().take(6))?, Verdict::Safe);
        assert_eq!(judge(alloc, &facts)?, breaks(7, Rule::OneWriteCache));
        let facts =
            record(alloc, [start(alloc, 1, b""), joined(1), joined(2), believes(1, 1, 5), expired(1, 1), believes(2, 1, 1)])?;
        assert_eq!(judge(alloc, &facts)?, Verdict::Safe);
        Ok(())
    })
}

#[test]
fn a_read_of_other_bytes() {
    passes(|| -> Result<(), Fail> {
        let alloc = Global;
        let stale = breaks(5, Rule::FreshCachedReads);
        let facts = record(alloc, [start(alloc, 1, b"a"), joined(1), sent(1), took(1), read(alloc, 1, 1, b"b")])?;
        assert_eq!(judge(alloc, &facts)?, stale);

        // A change that was made after the message was sent isn't seen before the next one is taken.
        let facts = record(
            alloc,
            [
                start(alloc, 1, b"a"),
                joined(1),
                sent(1),
                took(1),
                changed(alloc, 1, 2, 1, 1, b'c'),
                read(alloc, 1, 1, b"a"),
                sent(1),
                read(alloc, 1, 1, b"a"),
                took(1),
                read(alloc, 1, 1, b"ac"),
                read(alloc, 1, 1, b"a"),
            ],
        )?;
        assert_eq!(judge_each(alloc, facts.iter().take(10))?, Verdict::Safe);
        assert_eq!(judge(alloc, &facts)?, breaks(11, Rule::FreshCachedReads));
        Ok(())
    })
}

#[test]
fn a_read_without_a_message() {
    passes(|| -> Result<(), Fail> {
        let alloc = Global;
        let facts = record(alloc, [start(alloc, 1, b"a"), joined(1), read(alloc, 1, 1, b"a")])?;
        assert_eq!(judge(alloc, &facts)?, breaks(3, Rule::FreshCachedReads));
        let facts = record(
            alloc,
            [
                start(alloc, 1, b"a"),
                joined(1),
                sent(1),
                took(1),
                dropped(1),
                read(alloc, 1, 1, b"z"),
                joined(1),
                read(alloc, 1, 1, b"a"),
            ],
        )?;
        assert_eq!(judge_each(alloc, facts.iter().take(7))?, Verdict::Safe);
        assert_eq!(judge(alloc, &facts)?, breaks(8, Rule::FreshCachedReads));
        Ok(())
    })
}

#[test]
fn a_read_sees_unanswered_writes() {
    passes(|| -> Result<(), Fail> {
        let alloc = Global;
        let facts = record(
            alloc,
            [
                start(alloc, 1, b"abc"),
                joined(1),
                sent(1),
                took(1),
                buffered(alloc, 1, 1, 1, 0, b'X'),
                buffered(alloc, 1, 1, 2, 4, b'Y'),
                read(alloc, 1, 1, b"Xbc\0Y"),
                buffered(alloc, 1, 1, 3, 1, b'Z'),
                read(alloc, 1, 1, b"XZc\0Y"),
                settled(1, 1, Settlement::Lost),
                read(alloc, 1, 1, b"aZc\0Y"),
                changed(alloc, 1, 1, 3, 1, b'Z'),
                sent(1),
                settled(1, 3, Settlement::Done),
                read(alloc, 1, 1, b"abc\0Y"),
                took(1),
                read(alloc, 1, 1, b"aZc\0Y"),
                read(alloc, 1, 1, b"abc\0Y"),
            ],
        )?;
        assert_eq!(judge_each(alloc, facts.iter().take(17))?, Verdict::Safe);
        assert_eq!(judge(alloc, &facts)?, breaks(18, Rule::FreshCachedReads));
        Ok(())
    })
}

#[test]
fn facts_in_an_order_that_no_run_gives() {
    passes(|| -> Result<(), Fail> {
        let alloc = Global;
        let facts = record(alloc, [joined(1), sent(1), start(alloc, 1, b"a"), took(1), read(alloc, 1, 1, b"a")])?;
        assert_eq!(judge(alloc, &facts)?, Verdict::Safe);
        let facts = record(
            alloc,
            [
                start(alloc, 1, b"a"),
                joined(1),
                settled(1, 1, Settlement::Lost),
                sent(1),
                took(1),
                buffered(alloc, 1, 1, 1, 0, b'X'),
                read(alloc, 1, 1, b"a"),
            ],
        )?;
        assert_eq!(judge(alloc, &facts)?, Verdict::Safe);
        Ok(())
    })
}

#[test]
fn a_buffered_write_is_overtaken() {
    passes(|| -> Result<(), Fail> {
        let alloc = Global;
        let facts = record(
            alloc,
            [
                start(alloc, 1, b""),
                joined(1),
                buffered(alloc, 1, 1, 1, 0, b'X'),
                opened(1, 2),
                opened(1, 1),
                changed(alloc, 1, 1, 1, 0, b'X'),
            ],
        )?;
        assert_eq!(judge(alloc, &facts)?, breaks(6, Rule::NoLateWrite));

        // Its own open, one before it was buffered, and one of a write that wasn't buffered are no harm.
        let facts = record(
            alloc,
            [
                start(alloc, 1, b""),
                opened(1, 2),
                buffered(alloc, 1, 1, 1, 0, b'X'),
                opened(1, 1),
                changed(alloc, 1, 1, 1, 0, b'X'),
                through(alloc, 1, 1, 2, 0, b'Y'),
                opened(1, 2),
                changed(alloc, 1, 1, 2, 0, b'Y'),
            ],
        )?;
        assert_eq!(judge(alloc, &facts)?, Verdict::Safe);
        Ok(())
    })
}

#[test]
fn a_write_is_done_that_was_not_accepted() {
    passes(|| -> Result<(), Fail> {
        let alloc = Global;
        for (file, byte, verdict) in
            [(2, b'X', breaks(5, Rule::NoFalseDone)), (1, b'Y', breaks(5, Rule::NoFalseDone)), (1, b'X', Verdict::Safe)]
        {
            let facts = record(
                alloc,
                [
                    start(alloc, 1, b""),
                    start(alloc, 2, b""),
                    through(alloc, 1, 1, 1, 0, b'X'),
                    changed(alloc, file, 1, 1, 0, byte),
                    settled(1, 1, Settlement::Done),
                ],
            )?;
            assert_eq!(judge(alloc, &facts)?, verdict);
        }
        let facts = record(alloc, [settled(1, 1, Settlement::Failed), settled(1, 1, Settlement::Done)])?;
        assert_eq!(judge(alloc, &facts)?, breaks(2, Rule::NoFalseDone));
        Ok(())
    })
}

// The write is client 1's own: the other client wasn't given it, whoever changed the file.
#[test]
fn a_client_is_told_of_a_write_of_another() {
    passes(|| -> Result<(), Fail> {
        let alloc = Global;
        for changer in [1, 2] {
            let facts = record(
                alloc,
                [
                    start(alloc, 1, b""),
                    through(alloc, 1, 1, 1, 0, b'X'),
                    changed(alloc, 1, changer, 1, 0, b'X'),
                    settled(2, 1, Settlement::Done),
                ],
            )?;
            assert_eq!(judge(alloc, &facts)?, breaks(4, Rule::NoFalseDone));
        }
        Ok(())
    })
}

#[test]
fn a_settlement_answers_no_write_of_another_client() {
    passes(|| -> Result<(), Fail> {
        let alloc = Global;
        for (seen, verdict) in [(b"X", Verdict::Safe), (b"a", breaks(7, Rule::FreshCachedReads))] {
            let facts = record(
                alloc,
                [
                    start(alloc, 1, b"a"),
                    joined(1),
                    sent(1),
                    took(1),
                    buffered(alloc, 1, 1, 1, 0, b'X'),
                    settled(2, 1, Settlement::Lost),
                    read(alloc, 1, 1, seen),
                ],
            )?;
            assert_eq!(judge(alloc, &facts)?, verdict);
        }
        Ok(())
    })
}

#[test]
fn nothing_is_promised_of_strayed_clients() {
    passes(|| -> Result<(), Fail> {
        let alloc = Global;
        let facts = record(
            alloc,
            [
                start(alloc, 1, b""),
                joined(1),
                strayed(1),
                buffered(alloc, 1, 1, 1, 0, b'X'),
                opened(1, 2),
                changed(alloc, 1, 1, 1, 0, b'X'),
                settled(1, 2, Settlement::Done),
                joined(2),
                believes(1, 1, 5),
                believes(2, 1, 1),
                read(alloc, 1, 1, b"z"),
            ],
        )?;
        assert_eq!(judge(alloc, &facts)?, Verdict::Safe);
        Ok(())
    })
}

#[test]
fn facts_that_cannot_stand_in_a_record() {
    passes(|| -> Result<(), Fail> {
        let alloc = Global;
        let unstarted = record(
            alloc,
            [
                expired(1, 1),
                opened(1, 1),
                changed(alloc, 1, 1, 1, 0, b'X'),
                through(alloc, 1, 1, 1, 0, b'X'),
                believes(1, 1, 0),
                read(alloc, 1, 1, b""),
                took(1),
            ],
        )?;
        for fact in unstarted {
            assert_eq!(judge(alloc, &[fact])?, malformed(1));
        }
        let twice = record(alloc, [start(alloc, 1, b""), start(alloc, 1, b"")])?;
        assert_eq!(judge(alloc, &twice)?, malformed(2));
        let unjoined = record(alloc, [sent(1), took(1)])?;
        assert_eq!(judge(alloc, &unjoined)?, malformed(2));
        let untaken = record(alloc, [joined(1), sent(1), took(1), took(1)])?;
        assert_eq!(judge(alloc, &untaken)?, malformed(4));
        let number = record(
            alloc,
            [
                start(alloc, 1, b""),
                start(alloc, 2, b""),
                through(alloc, 1, 1, 1, 0, b'X'),
                through(alloc, 2, 1, 1, 0, b'X'),
                through(alloc, 1, 2, 1, 0, b'X'),
            ],
        )?;
        assert_eq!(judge(alloc, &number)?, malformed(5));
        Ok(())
    })
}

#[test]
fn patches_end_within_the_limit() {
    passes(|| -> Result<(), Fail> {
        let alloc = Global;
        for (offset, added, verdict) in [
            (1_048_575, b"X".as_slice(), Verdict::Safe),
            (1_048_576, b"".as_slice(), Verdict::Safe),
            (1_048_576, b"X".as_slice(), malformed(2)),
            (1_048_577, b"".as_slice(), malformed(2)),
            (u32::MAX, b"X".as_slice(), malformed(2)),
        ] {
            let wrote = Fact::Wrote(ClientNo(1), FileNo(1), 1, patch(alloc, offset, added)?, false);
            let facts = record(alloc, [start(alloc, 1, b""), Ok(wrote)])?;
            assert_eq!(judge(alloc, &facts)?, verdict);
            let changed = Fact::Changed(FileNo(1), ClientNo(1), 1, patch(alloc, offset, added)?);
            let facts = record(alloc, [start(alloc, 1, b""), Ok(changed)])?;
            assert_eq!(judge(alloc, &facts)?, verdict);
        }
        Ok(())
    })
}

#[test]
fn a_file_may_start_with_more_than_the_limit() {
    passes(|| -> Result<(), Fail> {
        let alloc = Global;
        let long = vec![in alloc; 7; 1_048_577]?;
        let facts = record(alloc, [start(alloc, 255, &long), joined(255), sent(255), took(255), read(alloc, 255, 255, &long)])?;
        assert_eq!(judge(alloc, &facts)?, Verdict::Safe);
        Ok(())
    })
}

// A write that is late and ends past the limit is reported as Malformed.
#[test]
fn malformed_goes_before_a_broken_rule() {
    passes(|| -> Result<(), Fail> {
        let alloc = Global;
        let long = patch(alloc, 1_048_576, b"X")?;
        let facts = record(
            alloc,
            [
                start(alloc, 1, b""),
                buffered(alloc, 1, 1, 1, 0, b'X'),
                opened(1, 2),
                Ok(Fact::Changed(FileNo(1), ClientNo(1), 1, long)),
            ],
        )?;
        assert_eq!(judge(alloc, &facts)?, malformed(4));
        Ok(())
    })
}
