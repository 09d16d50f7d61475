use leasecheck::proved::lease_lines::Machines;
use smblease_std::alloc::Global;
use smblease_std::prelude::{String, format};
use smblease_std::test::Fail;
use smblease_std::test::passes;

// What machines answer to the lines of a text, and why they refuse lines.
fn answers(alloc: Global, machines: Machines, lines: &[&str]) -> Result<(String, String), Fail> {
    let mut text = String::new(alloc);
    let mut why = String::new(alloc);
    let mut machines = machines;
    let mut number = 0u64;
    for line in lines {
        number = number.saturating_add(1);
        let (next, answer) = machines.answer(alloc, number, line.as_bytes())?;
        text.push_str(answer.text.as_str())?;
        why.push_str(answer.reason.as_str())?;
        machines = next;
    }
    Ok((text, why))
}

const LEASE: &str =
    "0000000010000400000018002000000052714c73000000001111111111111111111111110100000007000000000000000000000000000000";

#[test]
fn a_client_opens_and_is_refused() {
    passes(|| -> Result<(), Fail> {
        let alloc = Global;
        let lines = [
            "files 1",
            "client 11111111-1111-1111-1111-111111111111",
            "# a remark",
            "open 1 1 rw rw RWH",
            "connect 1",
            "open 1 1 rw rw RWH",
            "take 1 createfailed 1 c0000999",
            "open 2 1 rw rw RWH",
        ];
        let (told, why) = answers(alloc, Machines::clients(alloc), lines.as_slice())?;
        let expected = format!(in alloc;
            "answer refused offline\nanswer quiet\nrequest create 1 rw rw {LEASE}\nanswer waiting\n\
            answer failed c0000999\nfault line 8\n"
        )?;
        assert_eq!(told.as_str(), expected.as_str());
        assert_eq!(why.as_str(), "line 8: there is no client of this number\n");
        Ok(())
    })
}

#[test]
fn a_server_opens_and_reads() {
    passes(|| -> Result<(), Fail> {
        let alloc = Global;
        let lines =
            ["file 6162", "join 1", "join 1", "receive 1 create 1 r r -", "receive 1 read 1", "kept 1 1", "content 2", "file -"];
        let (told, why) = answers(alloc, Machines::server(), lines.as_slice())?;
        let expected = "answer done\nanswer nothing\nopened 1 1\nsent 1 created 1 1 -\nanswer done\n\
        sent 1 readdone 1 6162\nanswer done\nanswer none\nanswer none\nfault line 8\n";
        assert_eq!(told.as_str(), expected);
        assert_eq!(why.as_str(), "line 8: at most 255 files stand before the first call\n");
        Ok(())
    })
}

#[test]
fn a_server_is_told_its_rules_before_all_else() {
    passes(|| -> Result<(), Fail> {
        let alloc = Global;
        let lines = [
            "rules by-key",
            "rules by-key,whole",
            "rules by-key,whole",
            "file 6162",
            "rules by-client,as-free",
            "content 1",
            "rules by-key,whole",
        ];
        let (told, why) = answers(alloc, Machines::server(), lines.as_slice())?;
        let expected = "fault line 1\nfault line 3\nfault line 5\nanswer bytes 6162\nfault line 7\n";
        assert_eq!(told.as_str(), expected);
        let reasons = "line 1, field 2: rules, which are by-client or by-key, a comma, and as-free or whole; it is \"by-key\"\n\
        line 3: rules stand before all other lines\nline 5: rules stand before all other lines\n\
        line 7: rules stand before all other lines\n";
        assert_eq!(why.as_str(), reasons);
        Ok(())
    })
}
