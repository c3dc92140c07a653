//! What went wrong, in words and for programs.
use super::{
    json::{self, Json},
    words,
};
use crate::failure::Failure;

/// A failure as a person reads it.
pub fn sentence(failure: &Failure) -> String {
    match failure {
        Failure::Usage(why) => format!("{why}\n`burrcradle --help` tells what can be said."),
        Failure::File(why) => why.clone(),
        Failure::Refused(refusal) => format!("{}: {}", refusal.what, words::turned_away(refusal)),
    }
}

/// A refusal as a program reads it; other failures are for people only.
pub fn json(failure: &Failure) -> Option<Json> {
    match failure {
        Failure::Refused(refusal) => Some(Json::Object(vec![("refused", json::refusal(refusal))])),
        _ => None,
    }
}
