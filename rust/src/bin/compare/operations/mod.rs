//! The operations, in the paper's order; a roll that comes in pieces is one more, from start to finish.

use crate::operation::Listed;

mod character_of;
mod check;
mod choose;
mod codeword_of;
mod count;
mod edit;
mod feed;
mod finish;
mod make_directory;
mod pack;
mod pieces;
mod read_first;
mod read_frame;
mod read_frames;
mod read_one;
mod search;
mod search_jumping;
mod start;
mod unpack;
mod write_frames;

#[cfg(test)]
pub use read_first::NO_ROLL;

pub fn all() -> Vec<Listed> {
    vec![
        Listed::of::<count::Count>(),
        Listed::of::<choose::Choose>(),
        Listed::of::<codeword_of::CodewordOf>(),
        Listed::of::<character_of::CharacterOf>(),
        Listed::of::<check::Check>(),
        Listed::of::<unpack::Unpack>(),
        Listed::of::<pack::Pack>(),
        Listed::of::<make_directory::MakeDirectory>(),
        Listed::of::<read_one::ReadOne>(),
        Listed::of::<search::Search>(),
        Listed::of::<search_jumping::SearchJumping>(),
        Listed::of::<edit::Edit>(),
        Listed::of::<start::Start>(),
        Listed::of::<feed::Feed>(),
        Listed::of::<finish::Finish>(),
        Listed::of::<pieces::Pieces>(),
        Listed::of::<write_frames::WriteFrames>(),
        Listed::of::<read_frames::ReadFrames>(),
        Listed::of::<read_first::ReadFirst>(),
        Listed::of::<read_frame::ReadFrame>(),
    ]
}
