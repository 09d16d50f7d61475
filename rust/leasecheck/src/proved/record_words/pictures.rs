// Made by tools/plain_rust from crates/record_words/src/pictures.rt. Changes belong there.

//! Sequence pictures of records, and their texts as SVG.

mod captions;
mod fault;
mod labels;
mod lanes;
mod layout;
mod marks;
mod picture;
mod remarks;
mod requests;
mod rows;
mod shape;
mod svg;

pub use fault::PictureFault;
pub use layout::{MOST_FACTS, MOST_REQUESTS, picture_of};
pub use picture::{Caption, Mark, Picture, Remark, RequestMark};
pub use shape::{Look, Point, Shape, Size};
pub use svg::push_picture;
