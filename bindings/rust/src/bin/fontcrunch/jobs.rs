//! Lines spread over threads, and answered in their order.
//!
//! The reader puts each line on the queue of work, and where its answer will come from on the queue of answers. The
//! threads take lines as they get free; one thread writes, and waits for the answer that is next. So a slow line
//! keeps no other thread from working, and nobody sees who answered it.

use std::io::{self, ErrorKind, Write};
use std::sync::mpsc::{sync_channel, Receiver, SyncSender, TryRecvError};
use std::sync::{Arc, Mutex};
use std::thread;

use crate::arguments::Job;
use crate::inputs::{read_all, Lane, Source};
use crate::outlet::Outlet;
use crate::service::Status;
use crate::worker::{Answer, Worker};

/// How far, for each thread, reading may be ahead of writing: bounds what memory holds.
const AHEAD: usize = 64;

/// A line, and where its answer goes.
struct Task {
    line: Vec<u8>,
    answer: SyncSender<Answer>,
}

/// What is written next.
enum Next {
    Answer(Source, Receiver<Answer>),
    Wrong(String),
    Note(String),
}

pub fn run(job: &Job, mut outlet: Outlet<impl Write + Send>) -> Status {
    let (work, tasks) = sync_channel(job.jobs);
    let (order, nexts) = sync_channel(AHEAD * job.jobs);
    let tasks = Arc::new(Mutex::new(tasks));
    thread::scope(|scope| {
        for _ in 0..job.jobs {
            let tasks = Arc::clone(&tasks);
            scope.spawn(move || work_off(Worker::new(job), &tasks));
        }
        // with the last thread the queue ends, so that the reader never waits for none
        drop(tasks);
        let outlet = &mut outlet;
        scope.spawn(move || {
            if let Err(error) = write_in_order(outlet, nexts) {
                outlet.answers_fail(&error);
            }
        });
        // where answers can no longer be written, the writer has said so
        let _ = read_all(job, &mut Spread { work, order });
    });
    outlet.finish()
}

/// Until there are no more tasks. An answer that nobody waits for any more is dropped.
fn work_off(mut worker: Worker, tasks: &Mutex<Receiver<Task>>) {
    loop {
        let task = match tasks.lock() {
            Ok(tasks) => tasks.recv(),
            Err(_) => return,
        };
        let Ok(task) = task else {
            return;
        };
        let _ = task.answer.send(worker.answer(&task.line));
    }
}

fn write_in_order(outlet: &mut Outlet<impl Write>, nexts: Receiver<Next>) -> io::Result<()> {
    while let Some(next) = received(&nexts, outlet)? {
        match next {
            Next::Wrong(message) => outlet.wrong(&message),
            Next::Note(message) => outlet.note(&message),
            Next::Answer(source, answer) => match received(&answer, outlet)? {
                Some(answer) => outlet.take(&source, answer)?,
                None => break,
            },
        }
    }
    outlet.flush()
}

/// What comes; None where nothing will. Before it is waited for, what was answered goes out.
fn received<T>(from: &Receiver<T>, outlet: &mut Outlet<impl Write>) -> io::Result<Option<T>> {
    match from.try_recv() {
        Ok(it) => Ok(Some(it)),
        Err(TryRecvError::Disconnected) => Ok(None),
        Err(TryRecvError::Empty) => {
            outlet.flush()?;
            Ok(from.recv().ok())
        }
    }
}

/// The reader's ends of the two queues.
struct Spread {
    work: SyncSender<Task>,
    order: SyncSender<Next>,
}

impl Spread {
    fn put(&self, next: Next) -> io::Result<()> {
        self.order.send(next).map_err(|_| ErrorKind::BrokenPipe.into())
    }
}

impl Lane for Spread {
    fn take_line(&mut self, source: Source, line: &[u8]) -> io::Result<()> {
        let (answer, from) = sync_channel(1);
        self.put(Next::Answer(source, from))?;
        let task = Task { line: line.to_vec(), answer };
        self.work.send(task).map_err(|_| ErrorKind::BrokenPipe.into())
    }

    fn wrong(&mut self, message: String) -> io::Result<()> {
        self.put(Next::Wrong(message))
    }

    fn note(&mut self, message: String) -> io::Result<()> {
        self.put(Next::Note(message))
    }

    /// The writer does so whenever it has to wait.
    fn flush(&mut self) -> io::Result<()> {
        Ok(())
    }
}
