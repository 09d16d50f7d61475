// Made by tools/plain_rust from crates/record_words/src/pictures/svg.rt. Changes belong there.

use crate::proved::lease_texts::first_line;
use crate::proved::record_words::pictures::picture::{Caption, Mark, Picture, Remark, RequestMark};
use crate::proved::record_words::pictures::shape::{Look, Point, Shape, Size};
use std::alloc::AllocError;
use std::prelude::String;

// How many bytes of a remark have room, how many are shown of a longer one, and how many a word has that is taken for digits.
const ROOM: usize = 62;

const CUT: usize = 58;

const DIGITS: usize = 24;

fn push_escaped_byte(text: &mut String, byte: u8) -> Result<(), AllocError> {
    if byte == b'&' {
        text.push_str("&amp;")
    } else if byte == b'<' {
        text.push_str("&lt;")
    } else if byte == b'>' {
        text.push_str("&gt;")
    } else if byte >= 32 && byte < 127 {
        text.push(char::from(byte))
    } else {
        text.push_str("&#xfffd;")
    }
}

fn push_escaped(text: &mut String, bytes: &[u8]) -> Result<(), AllocError> {
    for byte in bytes {
        push_escaped_byte(text, *byte)?;
    }
    Ok(())
}

fn look_word(look: Look) -> &'static str {
    match look {
        Look::Heading => "heading",
        Look::Lane => "lane",
        Look::Connection => "connection",
        Look::Row => "row",
        Look::Number => "number",
        Look::Label => "label",
        Look::Remark => "remark",
        Look::Way => "way",
        Look::Message => "message",
        Look::WriteCaching => "writecaching",
        Look::Caching => "caching",
        Look::File => "file",
        Look::Event => "event",
        Look::Loss => "loss",
        Look::Accepted => "accepted",
        Look::CachedRead => "cachedread",
        Look::Stray => "stray",
        Look::Asking => "asking",
    }
}

fn push_line(text: &mut String, look: Look, from: Point, to: Point) -> Result<(), AllocError> {
    let class = look_word(look);
    let (x1, y1, x2, y2) = (from.x, from.y, to.x, to.y);
    write!(text, "<line class='{class}' x1='{x1}' y1='{y1}' x2='{x2}' y2='{y2}'/>\n")
}

fn push_rectangle(text: &mut String, look: Look, at: Point, size: Size) -> Result<(), AllocError> {
    let class = look_word(look);
    let (x, y, width, height) = (at.x, at.y, size.width, size.height);
    write!(text, "<rect class='{class}' x='{x}' y='{y}' width='{width}' height='{height}'/>\n")
}

fn push_circle(text: &mut String, look: Look, at: Point) -> Result<(), AllocError> {
    let class = look_word(look);
    let (x, y) = (at.x, at.y);
    write!(text, "<circle r='5' class='{class}' cx='{x}' cy='{y}'/>\n")
}

fn push_words_begin(text: &mut String, look: Look, at: Point) -> Result<(), AllocError> {
    let class = look_word(look);
    let (x, y) = (at.x, at.y);
    write!(text, "<text class='{class}' x='{x}' y='{y}'>")
}

fn push_shape(text: &mut String, shape: &Shape) -> Result<(), AllocError> {
    match shape {
        Shape::Line { from, to, look } => push_line(text, *look, *from, *to),
        Shape::Rectangle { at, size, look } => push_rectangle(text, *look, *at, *size),
        Shape::Circle { at, look } => push_circle(text, *look, *at),
        Shape::Words { at, text: words, look } => {
            push_words_begin(text, *look, *at)?;
            push_escaped(text, words.as_bytes())?;
            text.push_str("</text>\n")
        }
    }
}

fn push_shapes(text: &mut String, shapes: &[Shape]) -> Result<(), AllocError> {
    for shape in shapes {
        push_shape(text, shape)?;
    }
    Ok(())
}

// What a mark has after its title.
fn push_body(text: &mut String, shapes: &[Shape]) -> Result<(), AllocError> {
    push_shapes(text, shapes)?;
    text.push_str("</g>\n")
}

fn badness(is_bad: bool) -> &'static str {
    if is_bad { " bad" } else { "" }
}

fn push_caption_begin(text: &mut String, place: usize, kind: &str, bad: &str) -> Result<(), AllocError> {
    write!(text, "<g id='fact-{place}' class='{kind}{bad}'><title>")
}

fn push_caption(text: &mut String, caption: &Caption) -> Result<(), AllocError> {
    let (kind, bad) = (caption.kind.word(), badness(caption.is_bad));
    push_caption_begin(text, caption.place, kind, bad)?;
    push_escaped(text, caption.words.as_bytes())?;
    text.push_str("</title>\n")
}

fn push_mark(text: &mut String, mark: &Mark) -> Result<(), AllocError> {
    push_caption(text, &mark.caption)?;
    push_body(text, mark.shapes.as_slice())
}

fn push_marks(text: &mut String, marks: &[Mark]) -> Result<(), AllocError> {
    for mark in marks {
        push_mark(text, mark)?;
    }
    Ok(())
}

fn push_request_begin(text: &mut String, place: usize) -> Result<(), AllocError> {
    write!(text, "<g id='request-{place}' class='request'><title>")
}

fn push_request_mark(text: &mut String, mark: &RequestMark) -> Result<(), AllocError> {
    push_request_begin(text, mark.place)?;
    push_escaped(text, mark.words.as_bytes())?;
    text.push_str("</title>\n")?;
    push_body(text, mark.shapes.as_slice())
}

fn push_request_marks(text: &mut String, marks: &[RequestMark]) -> Result<(), AllocError> {
    for mark in marks {
        push_request_mark(text, mark)?;
    }
    Ok(())
}

// As many of a remark's words as have room beside the lanes. Digits of bytes aren't cut within a byte, and shorter words are whole.
fn shown_of(words: &[u8]) -> &[u8] {
    if words.len() <= ROOM {
        return words;
    }
    let (front, _) = words.split_at(CUT);
    match front.iter().rposition(|byte| *byte == b' ') {
        Some(space) if CUT - space < DIGITS => words.split_at(space).0,
        Some(space) => words.split_at(CUT - (CUT - space - 1) % 2).0,
        None => front,
    }
}

// What has no room is in the title, as a whole.
fn push_remark_words(text: &mut String, words: &[u8]) -> Result<(), AllocError> {
    let shown = shown_of(words);
    push_escaped(text, shown)?;
    if shown.len() < words.len() {
        text.push_str("...<title>")?;
        push_escaped(text, words)?;
        text.push_str("</title>")?;
    }
    Ok(())
}

fn push_remark(text: &mut String, remark: &Remark) -> Result<(), AllocError> {
    push_words_begin(text, Look::Remark, remark.at)?;
    push_remark_words(text, remark.words.as_slice())?;
    text.push_str("</text>\n")
}

fn push_remarks(text: &mut String, remarks: &[Remark]) -> Result<(), AllocError> {
    for remark in remarks {
        push_remark(text, remark)?;
    }
    Ok(())
}

fn push_note_begin(text: &mut String) -> Result<(), AllocError> {
    text.push_str("<tspan x='8' dy='18'>")
}

fn push_note(text: &mut String, line: &[u8]) -> Result<(), AllocError> {
    push_note_begin(text)?;
    push_escaped(text, line)?;
    text.push_str("</tspan>\n")
}

fn push_note_lines(text: &mut String, notes: &[u8]) -> Result<(), AllocError> {
    let mut rest = notes;
    while !rest.is_empty() {
        let (line, behind) = first_line(rest);
        push_note(text, line)?;
        rest = behind;
    }
    Ok(())
}

fn push_notes(text: &mut String, picture: &Picture) -> Result<(), AllocError> {
    let notes_at = picture.notes_at;
    write!(text, "<text class='notes' x='8' y='{notes_at}'>\n")?;
    push_note_lines(text, picture.notes.as_bytes())?;
    text.push_str("</text>\n")
}

fn push_size(text: &mut String, size: Size) -> Result<(), AllocError> {
    let (width, height) = (size.width, size.height);
    write!(text, "<svg xmlns='http://www.w3.org/2000/svg' width='{width}' height='{height}' viewBox='0 0 {width} {height}'>\n")
}

// How the classes look. Words have a white edge, by which they can be read where lines cross them.
fn push_style(text: &mut String) -> Result<(), AllocError> {
    text.push_str("<style>text {font: 12px sans-serif; paint-order: stroke; stroke: #fff; stroke-width: 3px}\n")?;
    text.push_str(".heading {font-size: 15px; font-weight: bold} .number, .remark {fill: #777} .paper {fill: #fff}")?;
    text.push_str(" .row {fill: #e53935; fill-opacity: 0.2}\n")?;
    text.push_str(".bad text {fill: #b00020; font-weight: bold} .bad circle {stroke: #b00020; stroke-width: 3}\n")?;
    text.push_str(".lane {stroke: #ccc; stroke-dasharray: 2 4} .connection {stroke: #333; stroke-width: 2}\n")?;
    text.push_str(
        ".way, .message {stroke: #1565c0} .message {marker-end: url(#arrow)} .caching {fill: #a5d6a7} .writecaching {fill: #ffb74d}\n",
    )?;
    text.push_str(".file {font-size: 9px; stroke: none}\n")?;
    text.push_str(".event {fill: #333} .accepted {fill: #6a1b9a} .cachedread {fill: #2e7d32} .asking {fill: #1565c0}\n")?;
    text.push_str(".loss, .stray {fill: #fff; stroke: #b00020; stroke-width: 2}</style>\n")?;
    text.push_str("<defs><marker id='arrow' markerWidth='9' markerHeight='8' refX='13' refY='4' orient='auto'>\n")?;
    text.push_str("<path d='M0,0 L9,4 L0,8 z' fill='#1565c0'/></marker></defs><rect class='paper' width='100%' height='100%'/>\n")
}

// What a picture tells: its marks, and what is said of facts.
fn push_told(text: &mut String, picture: &Picture) -> Result<(), AllocError> {
    push_marks(text, picture.marks.as_slice())?;
    push_request_marks(text, picture.requests.as_slice())?;
    push_remarks(text, picture.remarks.as_slice())
}

/// Adds a picture as an SVG document (profile): a group for each mark, with its request or its fact as title.
pub fn push_picture(text: &mut String, picture: &Picture) -> Result<(), AllocError> {
    push_size(text, picture.size)?;
    push_style(text)?;
    push_shapes(text, picture.lanes.as_slice())?;
    push_told(text, picture)?;
    push_notes(text, picture)?;
    text.push_str("</svg>\n")
}
