use super::words::{KEY, ONE, TWO};
use smblease::proved::break_timers::{BreakNo, BreakTimers};
use smblease::proved::lease_manager::{BreakNotice, ClientNo, Decision, LeaseName};
use smblease::proved::lease_state::LeaseState;
use smblease_std::alloc::Global;
use smblease_std::test::Fail;
use smblease_std::test::passes;

fn broken(client: ClientNo, ack_required: bool) -> Decision {
    Decision::Breaks {
        client,
        notice: BreakNotice { ack_required, key: KEY, current: LeaseState::from_wire(7), lowered: LeaseState::from_wire(3) },
    }
}

#[test]
fn an_old_timer_ends_no_later_break() {
    passes(|| -> Result<(), Fail> {
        let mut timers = BreakTimers::new(Global);
        assert_eq!(timers.note(&broken(ONE, true))?, Some(BreakNo(1)));
        assert_eq!(timers.note(&broken(TWO, true))?, Some(BreakNo(2)));
        assert_eq!(timers.note(&broken(ONE, true))?, Some(BreakNo(3)));
        let (one, two) = (LeaseName { client: ONE, bytes: KEY }, LeaseName { client: TWO, bytes: KEY });
        assert_eq!(timers.run_out(BreakNo(1)), None);
        assert_eq!(timers.run_out(BreakNo(3)), Some(one));
        assert_eq!(timers.run_out(BreakNo(3)), None);
        assert_eq!(timers.run_out(BreakNo(2)), Some(two));
        Ok(())
    })
}

#[test]
fn a_break_that_is_acknowledged_has_no_timer() {
    passes(|| -> Result<(), Fail> {
        let mut timers = BreakTimers::new(Global);
        timers.note(&broken(ONE, true))?;
        timers.note(&broken(TWO, true))?;
        let acknowledged = Decision::Acknowledged { client: ONE, key: KEY, state: LeaseState::from_wire(3) };
        assert_eq!(timers.note(&acknowledged)?, None);
        assert_eq!(timers.run_out(BreakNo(1)), None);
        timers.stop(LeaseName { client: TWO, bytes: KEY });
        assert_eq!(timers.run_out(BreakNo(2)), None);
        assert_eq!(timers.start(LeaseName { client: TWO, bytes: KEY })?, BreakNo(3));
        Ok(())
    })
}

#[test]
fn a_break_of_reads_starts_no_timer() {
    passes(|| -> Result<(), Fail> {
        let mut timers = BreakTimers::new(Global);
        assert_eq!(timers.note(&broken(ONE, false))?, None);
        assert_eq!(timers.note(&broken(ONE, true))?, Some(BreakNo(1)));
        Ok(())
    })
}
