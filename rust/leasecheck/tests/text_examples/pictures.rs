use leasecheck::proved::lease_reasons::{Messages, explain, extent_of};
use leasecheck::proved::record_words::{
    Caption, ClientFact, FactKind, Look, Mark, Passage, Picture, PictureFault, Point, Remark, Shape, Size, bad_places,
    picture_of, push_explanation, push_fact_words, push_picture, push_reasoned, read_placed,
};
use smblease::proved::lease_state::{Bytes, ClientNo, FileId, Request};
use smblease::proved::lease_world::judge;
use smblease_std::alloc::Global;
use smblease_std::prelude::{String, Vec, vec};
use smblease_std::test::Fail;
use smblease_std::test::passes;

const RECORD: &[u8] = b"start 1 61\n# a remark\njoined 1\nsent 1\ntook 1\nsettled 1 1 done\n";

#[test]
fn words_are_escaped() {
    passes(|| -> Result<(), Fail> {
        let alloc = Global;
        let at = Point { x: 3, y: 4 };
        let words = Shape::Words { at, text: String::from_str(alloc, "<1 & 2>")?, look: Look::Label };
        let mark = Mark {
            caption: Caption {
                place: 1,
                kind: FactKind::Client(ClientFact::Sent),
                is_bad: true,
                words: String::from_str(alloc, "a\tb")?,
            },
            shapes: vec![in alloc; words]?,
        };
        let remark = Remark { at: Point { x: 5, y: 6 }, words: Bytes::new(Vec::from_slice(alloc, b"<packet 7>\x80")?) };
        let picture = Picture {
            size: Size { width: 10, height: 20 },
            lanes: Vec::new(alloc),
            marks: vec![in alloc; mark]?,
            requests: Vec::new(alloc),
            remarks: vec![in alloc; remark]?,
            notes: String::from_str(alloc, "safe\n")?,
            notes_at: 7,
        };
        let mut text = String::new(alloc);
        push_picture(&mut text, &picture)?;
        let begin = "<svg xmlns='http://www.w3.org/2000/svg' width='10' height='20' viewBox='0 0 10 20'>\n<style>";
        let end = "<rect class='paper' width='100%' height='100%'/>\n\
        <g id='fact-1' class='sent bad'><title>a&#xfffd;b</title>\n\
        <text class='label' x='3' y='4'>&lt;1 &amp; 2&gt;</text>\n</g>\n\
        <text class='remark' x='5' y='6'>&lt;packet 7&gt;&#xfffd;</text>\n\
        <text class='notes' x='8' y='7'>\n<tspan x='8' dy='18'>safe</tspan>\n</text>\n</svg>\n";
        assert!(text.as_str().starts_with(begin));
        assert!(text.as_str().ends_with(end));
        Ok(())
    })
}

#[test]
fn a_bad_fact_is_marked() {
    passes(|| -> Result<(), Fail> {
        let alloc = Global;
        let placed = read_placed(alloc, RECORD)?;
        let facts = placed.facts.as_slice();
        let verdict = judge(alloc, facts)?;
        let reason = explain(alloc, facts, &verdict)?;
        let extent = extent_of(alloc, facts, &verdict)?;
        let bad = bad_places(alloc, &verdict, &reason)?;
        assert_eq!(bad.as_slice(), [5].as_slice());
        let (mut once, mut again) = (String::new(alloc), String::new(alloc));
        push_reasoned(alloc, &mut once, &placed, &verdict, &reason, &extent)?;
        push_explanation(alloc, &mut again, &placed, &verdict)?;
        assert!(once.as_str().starts_with("line 6: client 1 learns that its write 1 is done\nrule 4: "));
        assert_eq!(once.as_str(), again.as_str());
        let picture = picture_of(alloc, facts, bad.as_slice(), once, &[], &[], &[])?;
        assert_eq!(picture.marks.len(), 5);
        assert_eq!(picture.marks[4].caption.kind, FactKind::Settled);
        assert!(picture.marks[4].caption.is_bad);
        assert!(!picture.marks[3].caption.is_bad);
        assert_eq!(picture.marks[3].caption.words.as_str(), "client 1 takes a message");
        Ok(())
    })
}

#[test]
fn facts_are_told_in_words() {
    passes(|| -> Result<(), Fail> {
        let alloc = Global;
        let placed = read_placed(alloc, RECORD)?;
        assert_eq!(placed.line(3), 4);
        let Some(fact) = placed.fact(3) else {
            return Err(Fail::new("there is no third fact"));
        };
        let mut text = String::new(alloc);
        push_fact_words(alloc, &mut text, fact)?;
        assert_eq!(text.as_str(), "a message is sent to client 1");
        assert_eq!(fact.client(), Some(ClientNo(1)));
        let messages = Messages::of(alloc, placed.facts.as_slice(), ClientNo(1))?;
        assert_eq!((messages.sent(), messages.taken()), (1, 1));
        assert_eq!(messages.last_sent(), Some(3));
        Ok(())
    })
}

#[test]
fn requests_are_drawn() {
    passes(|| -> Result<(), Fail> {
        let alloc = Global;
        let placed = read_placed(alloc, RECORD)?;
        let (client, sent) = (ClientNo(1), Request::Read { fid: FileId(7) });
        let passages = vec![in alloc;
            Passage::Sent {
                client,
                request: sent,
                facts: 2
            },
            Passage::Taken { client, facts: 2 },
            Passage::Sent {
                client,
                request: Request::Close { fid: FileId(7) },
                facts: 4
            },
            Passage::Lost { client, facts: 5 },
        ]?;
        let facts = placed.facts.as_slice();
        let picture = picture_of(alloc, facts, &[], String::new(alloc), &[], &[], passages.as_slice())?;
        let [read, close] = picture.requests.as_slice() else {
            return Err(Fail::new("there are two requests"));
        };
        assert_eq!((read.place, read.words.as_str()), (1, "client 1 sends: read 7"));
        assert_eq!((close.place, close.words.as_str()), (2, "client 1 sends: close 7"));
        // The way of the first one with its arrow, its point and its label; the other has no arrow.
        assert_eq!((read.shapes.len(), close.shapes.len()), (4, 3));
        let mut text = String::new(alloc);
        push_picture(&mut text, &picture)?;
        assert!(text.as_str().contains("<g id='request-2' class='request'><title>client 1 sends: close 7</title>\n"));
        Ok(())
    })
}

#[test]
fn more_facts_than_a_picture_has() {
    passes(|| -> Result<(), Fail> {
        let alloc = Global;
        let mut text = String::new(alloc);
        for _ in 0..5001 {
            text.push_str("joined 1\n")?;
        }
        let placed = read_placed(alloc, text.as_bytes())?;
        let answer = picture_of(alloc, placed.facts.as_slice(), &[], String::new(alloc), &[], &[], &[]);
        assert!(matches!(answer, Err(PictureFault::TooMany)));
        Ok(())
    })
}

#[test]
fn lanes_stand_by_their_numbers_around_the_server() {
    passes(|| -> Result<(), Fail> {
        let alloc = Global;
        let placed = read_placed(alloc, b"joined 255\njoined 2\njoined 1\n")?;
        let notes = String::from_str(alloc, "one\ntwo\n")?;
        let picture = picture_of(alloc, placed.facts.as_slice(), &[], notes, &[], &[], &[])?;
        assert_eq!(picture.size, Size { width: 1320, height: 244 });
        let mut text = String::new(alloc);
        push_picture(&mut text, &picture)?;
        let drawn = text.as_str();
        assert!(drawn.contains("<text class='heading' x='120' y='46'>client 1</text>"));
        assert!(drawn.contains("<text class='heading' x='420' y='46'>client 2</text>"));
        assert!(drawn.contains("<text class='heading' x='720' y='46'>server</text>"));
        assert!(drawn.contains("<text class='heading' x='1020' y='46'>client 255</text>"));
        Ok(())
    })
}

// The third and the fifth fact have no row of remarks: one is empty, and there is none for the other.
#[test]
fn remarks_stand_beside_their_facts() {
    passes(|| -> Result<(), Fail> {
        let alloc = Global;
        let placed = read_placed(alloc, RECORD)?;
        let mut remarks = Vec::new(alloc);
        for words in [b"one".as_slice(), b"two", b"", b"four"] {
            remarks.push(Bytes::new(Vec::from_slice(alloc, words)?))?;
        }
        let picture = picture_of(alloc, placed.facts.as_slice(), &[], String::new(alloc), remarks.as_slice(), &[], &[])?;
        let drawn = picture.remarks.as_slice();
        let places = drawn.iter().map(|remark| (remark.at.x, remark.at.y));
        assert!(places.eq([(720, 80), (720, 104), (720, 152)]));
        assert!(drawn.iter().map(|remark| remark.words.len()).eq([3, 3, 4]));
        assert_eq!(picture.size.width, 1500);
        Ok(())
    })
}
