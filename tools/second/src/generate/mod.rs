//! Makes messages and texts from a seed: valid ones of every shape, and damaged ones.

mod damage;
mod messages;
mod texts;

pub use messages::{
    damaged_message, message, message_of_size, message_with_z, misfit_message, valid_message,
};
pub use texts::{
    damaged_text, drafted_text, harmed_text, text, text_about_z, text_harmed_late, valid_text,
    RCODES,
};
