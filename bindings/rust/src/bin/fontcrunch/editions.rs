//! The tool editions: two lines for each contour, one an edition.

use fontcrunch::{Crunched, Editions, Refusal};

use crate::fallen::Fallen;
use crate::service::Status;
use crate::worker::{crunched_text, refused_text, Reply};

/// Both lines.
pub fn reply(editions: &Editions, fallen: Fallen) -> Reply {
    let Editions { a, b } = editions;
    let refused = a.is_err() || b.is_err();
    Reply {
        text: Some(format!("a {}\nb {}", text_of(a, fallen), text_of(b, fallen))),
        status: if refused { Status::SomeRefused } else { Status::AllCrunched },
    }
}

/// Each refusal, and whose it is.
pub fn refusals(editions: &Editions) -> Vec<(&'static str, Refusal)> {
    let each = [("a", &editions.a), ("b", &editions.b)];
    each.into_iter()
        .filter_map(|(name, edition)| edition.as_ref().err().map(|refusal| (name, *refusal)))
        .collect()
}

fn text_of(edition: &Result<Crunched, Refusal>, fallen: Fallen) -> String {
    match edition {
        Ok(crunched) => fallen.after(crunched_text(crunched), crunched.fallen),
        Err(refusal) => refused_text(*refusal, fallen),
    }
}
