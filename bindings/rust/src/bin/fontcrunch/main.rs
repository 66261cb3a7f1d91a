//! The command fontcrunch: contours in, one a line; a line out for each. `fontcrunch --help` tells all.

mod arguments;
mod beside;
mod chain_line;
mod chains;
mod cleaning;
mod contour_line;
mod corners;
mod cubic_glif;
mod cubics;
mod destination;
mod editions;
mod explicit;
mod fallen;
mod glif;
mod glyph;
mod idle;
mod inputs;
mod interrupt;
mod jobs;
mod journal;
mod kinds;
mod look;
mod notes;
mod odd_bytes;
mod outlet;
mod page;
mod picture;
mod plist;
mod reasons;
mod recipe;
mod report;
mod service;
mod sha256;
mod sketch;
mod stream;
mod summary;
mod trace;
mod ufo;
mod whole;
mod worker;

use std::env;
use std::io::{self, Write};
use std::process::ExitCode;

use arguments::Request;
use service::Status;

fn main() -> ExitCode {
    let status = match arguments::read(env::args_os().skip(1)) {
        Ok(Request::Help(tool)) => print(&arguments::help(tool)),
        Ok(Request::Version) => print(&arguments::version()),
        Ok(Request::Crunch(job)) => service::run(&job),
        Ok(Request::File(settings, more, name)) => glif::crunch_file(settings, more, &name),
        Ok(Request::Files(job)) => ufo::run_files(&job),
        Ok(Request::Ufo(job)) => ufo::run(&job),
        Ok(Request::FilePage(job, name)) => service::file_page(&job, &name),
        Err(wrong) => {
            service::complain(&wrong);
            Status::Wrong
        }
    };
    ExitCode::from(status as u8)
}

fn print(text: &str) -> Status {
    match io::stdout().lock().write_all(text.as_bytes()) {
        Ok(()) => Status::AllCrunched,
        Err(_) => Status::Wrong,
    }
}
