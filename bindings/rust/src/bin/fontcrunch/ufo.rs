//! The tool ufo: the glyphs of a UFO's default layer crunched, and everything else copied as it stands.

use std::collections::{HashMap, HashSet};
use std::ffi::OsStr;
use std::fs::{self, File};
use std::io::{self, Read};
use std::path::{Component, Path, PathBuf};

use crate::arguments::FilesJob;
use crate::beside::{remove_temporary, Beside, OURS};
use crate::interrupt;
use crate::plist;
use crate::service::{complain, Status};
use crate::summary;
use crate::whole::{self, set_mode, Item, Journals, Outcomes};

/// The folder of the default layer, in every format of UFO.
const LAYER: &str = "glyphs";
const CONTENTS: &str = "contents.plist";
/// Copied last, so that what an interrupted call leaves is no UFO for those who open it.
const LAST: &str = "metainfo.plist";

pub fn run(job: &FilesJob) -> Status {
    let from = &job.inputs[0];
    match planned(from, job.out.as_deref()) {
        Err(wrong) => {
            wrong.iter().for_each(|message| complain(message));
            Status::Wrong
        }
        Ok(plan) => done(&plan, from, job),
    }
}

/// What is to be done, and what was met that is told and passed over.
struct Plan {
    items: Vec<Item>,
    /// Folders and other files, by their places in the UFO.
    folders: Vec<PathBuf>,
    others: Vec<PathBuf>,
    wrong: Vec<String>,
    notes: Vec<String>,
}

fn done(plan: &Plan, from: &Path, job: &FilesJob) -> Status {
    interrupt::goes_on();
    let mut wrong = plan.wrong.clone();
    let outcomes = worked(plan, from, job, &mut wrong).unwrap_or_else(|why| Outcomes::none(&plan.items, why));
    let told = summary::Told { what: "glyph", wrong, notes: plan.notes.clone() };
    summary::tell(job, &plan.items, &outcomes, told)
}

/// An error is that nothing could be done.
fn worked(plan: &Plan, from: &Path, job: &FilesJob, wrong: &mut Vec<String>) -> Result<Outcomes, String> {
    if let Some(out) = &job.out {
        make_folders(plan, out)?;
    }
    let journals = Journals::open(&plan.items, &job.recipe)?;
    if let Some(out) = &job.out {
        plan.folders.iter().for_each(|place| remove_temporary(&out.join(place)));
        remove_temporary(out);
        copy_others(plan, from, out, wrong, |path| path != Path::new(LAST))?;
    }
    let mut outcomes = whole::work(&plan.items, job, &journals);
    if outcomes.stopped.is_some() {
        return Ok(outcomes);
    }
    if let Some(out) = &job.out {
        let ended = copy_others(plan, from, out, wrong, |path| path == Path::new(LAST));
        outcomes.stopped = ended.and_then(|()| set_modes(plan, from, out)).err();
    }
    journals.remove();
    Ok(outcomes)
}

// ---- the plan

fn planned(from: &Path, out: Option<&Path>) -> Result<Plan, Vec<String>> {
    let one = |message: String| vec![message];
    let layer = from.join(LAYER);
    match fs::metadata(from) {
        Err(error) => return Err(one(format!("{}: {error}", from.display()))),
        Ok(about) if !about.is_dir() => {
            return Err(one(format!(
                "{}: is no folder; a UFO is one, and a zipped one is not read",
                from.display()
            )))
        }
        Ok(_) if !layer.is_dir() => {
            return Err(one(format!("{}: is no UFO: it has no folder {LAYER}", from.display())))
        }
        Ok(_) => {}
    }
    let mut plan = Plan { items: vec![], folders: vec![], others: vec![], wrong: vec![], notes: vec![] };
    let mut tree = Tree { links: Links::Followed, ..Tree::default() };
    tree.walk(from, Path::new("")).map_err(|error| one(format!("{}: {error}", from.display())))?;
    plan.wrong.append(&mut tree.wrong);
    if let Some(out) = out {
        apart(from, out).map_err(one)?;
        nothing_else(&tree, from, out).map_err(one)?;
        if let Some(left) = tree.ours.first() {
            let note =
                "was left by a call in place, which --in-place goes on with: some glyphs here are crunched";
            plan.notes.push(format!("{}: {note}", from.join(left).display()));
        }
    }
    let glyphs = glyphs(&layer, &tree, &mut plan).map_err(one)?;
    let written = out.unwrap_or(from).join(LAYER);
    let files: HashSet<&Path> = glyphs.iter().map(|(_, file)| file.as_path()).collect();
    let is_glyph = |path: &Path| path.parent() == Some(Path::new(LAYER)) && files.contains(file_of(path));
    plan.others = tree.files.into_iter().filter(|path| !is_glyph(path)).collect();
    plan.folders = tree.folders;
    plan.items = glyphs
        .into_iter()
        .map(|(name, file)| Item { name, from: layer.join(&file), to: written.join(&file) })
        .collect();
    Ok(plan)
}

fn file_of(path: &Path) -> &Path {
    Path::new(path.file_name().unwrap_or_default())
}

/// The names and files of the layer, as its list has them, each file once.
fn glyphs(layer: &Path, tree: &Tree, plan: &mut Plan) -> Result<Vec<(String, PathBuf)>, String> {
    let list = layer.join(CONTENTS);
    let named = match fs::read(&list) {
        Ok(bytes) => plist::named(&list, &bytes)?,
        Err(error) if error.kind() == io::ErrorKind::NotFound => {
            let note = "is missing: every file there whose name ends with .glif is a glyph";
            plan.notes.push(format!("{}: {note}", list.display()));
            return Ok(by_ending(tree));
        }
        Err(error) => return Err(format!("{}: {error}", list.display())),
    };
    let mut seen = HashSet::new();
    let mut glyphs = Vec::new();
    for (name, file) in named {
        let file = PathBuf::from(file);
        let mut parts = file.components();
        let plain =
            matches!((parts.next(), parts.next()), (Some(Component::Normal(part)), None) if part == file);
        if !plain {
            let (name, file) = (name.escape_debug(), file.display().to_string());
            let message =
                format!("{}: glyph {name}: '{}' is no name of a file", list.display(), file.escape_debug());
            plan.wrong.push(message);
        } else if seen.insert(file.clone()) {
            glyphs.push((name, file));
        }
    }
    Ok(glyphs)
}

fn by_ending(tree: &Tree) -> Vec<(String, PathBuf)> {
    let in_layer = tree.files.iter().filter(|path| path.parent() == Some(Path::new(LAYER)));
    let ends = in_layer.filter(|path| path.extension() == Some(OsStr::new("glif")));
    ends.map(|path| {
        let name = path.file_stem().unwrap_or_default().to_string_lossy().into_owned();
        (name, file_of(path).to_owned())
    })
    .collect()
}

/// Neither folder lies in the other, nor are they one.
fn apart(from: &Path, out: &Path) -> Result<(), String> {
    let told = |error: io::Error| format!("{}: {error}", out.display());
    let (inner, outer) = (from.canonicalize().map_err(told)?, resolved(out).map_err(told)?);
    let (from, out) = (from.display(), out.display());
    if inner == outer {
        Err(format!("{out}: is {from} itself; --in-place writes there"))
    } else if outer.starts_with(&inner) {
        Err(format!("{out}: lies in {from}, which is copied to it"))
    } else if inner.starts_with(&outer) {
        Err(format!("{out}: holds {from}, which is copied to it"))
    } else {
        Ok(())
    }
}

/// A path without links, also of a folder that is not there yet.
fn resolved(path: &Path) -> io::Result<PathBuf> {
    let mut there = path;
    let mut after = Vec::new();
    loop {
        match there.canonicalize() {
            Ok(found) => return Ok(after.iter().rev().fold(found, |path, part| path.join(part))),
            Err(error) => match (there.file_name(), there.parent()) {
                (Some(name), Some(parent)) if error.kind() == io::ErrorKind::NotFound => {
                    after.push(name);
                    there = if parent.as_os_str().is_empty() { Path::new(".") } else { parent };
                }
                _ => return Err(error),
            },
        }
    }
}

/// A folder that is there already has only what an earlier call may have put there.
fn nothing_else(tree: &Tree, from: &Path, out: &Path) -> Result<(), String> {
    match fs::metadata(out) {
        Err(error) if error.kind() == io::ErrorKind::NotFound => return Ok(()),
        Err(error) => return Err(format!("{}: {error}", out.display())),
        Ok(about) if !about.is_dir() => return Err(format!("{}: is there, and is no folder", out.display())),
        Ok(_) => {}
    }
    let mut there = Tree { links: Links::Files, ..Tree::default() };
    there.walk(out, Path::new("")).map_err(|error| format!("{}: {error}", out.display()))?;
    let files: HashSet<&PathBuf> = tree.files.iter().collect();
    let folders: HashSet<&PathBuf> = tree.folders.iter().collect();
    let other_file = there.files.iter().find(|path| !files.contains(path));
    let other = other_file.or_else(|| there.folders.iter().find(|path| !folders.contains(path)));
    match other {
        None => Ok(()),
        Some(path) => Err(format!(
            "{}: is there and has {}, which {} has not; name another folder, or remove it",
            out.display(),
            path.display(),
            from.display()
        )),
    }
}

/// What is done with symbolic links.
#[derive(Default)]
enum Links {
    /// What they lead to is taken in their place.
    Followed,
    /// They count as files, whatever they lead to.
    #[default]
    Files,
}

/// The files and folders under a folder, by their places in it, in the order of their names.
#[derive(Default)]
struct Tree {
    links: Links,
    files: Vec<PathBuf>,
    folders: Vec<PathBuf>,
    /// What is left of a call that was interrupted.
    ours: Vec<PathBuf>,
    wrong: Vec<String>,
    /// The folders on the way, so that a link does not lead round.
    way: Vec<PathBuf>,
}

impl Tree {
    fn walk(&mut self, root: &Path, place: &Path) -> io::Result<()> {
        let folder = root.join(place);
        let real = folder.canonicalize()?;
        if self.way.contains(&real) {
            self.wrong.push(format!(
                "{}: a symbolic link leads back to a folder that it lies in",
                folder.display()
            ));
            return Ok(());
        }
        self.way.push(real);
        let mut names =
            fs::read_dir(&folder)?.map(|entry| Ok(entry?.file_name())).collect::<io::Result<Vec<_>>>()?;
        names.sort();
        for name in names {
            if name.as_encoded_bytes().starts_with(OURS.as_bytes()) {
                self.ours.push(place.join(name));
            } else {
                self.take(root, place.join(name))?;
            }
        }
        self.way.pop();
        Ok(())
    }

    fn take(&mut self, root: &Path, place: PathBuf) -> io::Result<()> {
        let path = root.join(&place);
        let about = match self.links {
            Links::Followed => fs::metadata(&path),
            Links::Files => fs::symlink_metadata(&path),
        };
        match about {
            Err(error) => self.wrong.push(format!("{}: {error}", path.display())),
            Ok(about) if about.is_dir() => {
                self.folders.push(place.clone());
                self.walk(root, &place)?;
            }
            Ok(about) if about.is_file() || about.is_symlink() => self.files.push(place),
            Ok(_) => self
                .wrong
                .push(format!("{}: is neither a file nor a folder, and is left out", path.display())),
        }
        Ok(())
    }
}

// ---- copies

fn unwritten(path: &Path, error: io::Error) -> String {
    format!("{}: {error}", path.display())
}

fn make_folders(plan: &Plan, out: &Path) -> Result<(), String> {
    fs::create_dir_all(out).map_err(|error| unwritten(out, error))?;
    for folder in plan.folders.iter().map(|place| out.join(place)).filter(|folder| !folder.is_dir()) {
        fs::create_dir(&folder).map_err(|error| unwritten(&folder, error))?;
    }
    Ok(())
}

/// Of the other files those that are asked for. One that cannot be read is told and left out; where nothing can be
/// written, that ends it.
fn copy_others(
    plan: &Plan,
    from: &Path,
    out: &Path,
    wrong: &mut Vec<String>,
    asked: impl Fn(&Path) -> bool,
) -> Result<(), String> {
    for place in plan.others.iter().filter(|place| asked(place)) {
        let (read, written) = (from.join(place), out.join(place));
        match File::open(&read) {
            Err(error) => wrong.push(format!("{}: {error}", read.display())),
            Ok(file) => copy(file, &written).map_err(|error| unwritten(&written, error))?,
        }
    }
    Ok(())
}

/// Byte for byte, in memory that does not grow with the file; not again where it stands there already.
fn copy(mut file: File, to: &Path) -> io::Result<()> {
    let mode = file.metadata()?.permissions();
    if fs::symlink_metadata(to).is_ok_and(|about| about.is_file()) && same(&mut file, &mut File::open(to)?)? {
        return set_mode(to, mode);
    }
    io::Seek::rewind(&mut file)?;
    let mut beside = Beside::create(to)?;
    let mut part = vec![0; 1 << 16];
    loop {
        match file.read(&mut part)? {
            0 => break,
            count => beside.write_all(&part[..count])?,
        }
    }
    beside.sync(Some(mode))?;
    beside.rename()
}

fn same(a: &mut File, b: &mut File) -> io::Result<bool> {
    if a.metadata()?.len() != b.metadata()?.len() {
        return Ok(false);
    }
    let (mut left, mut right) = (vec![0; 1 << 16], vec![0; 1 << 16]);
    loop {
        let count = a.read(&mut left)?;
        if count == 0 {
            return Ok(true);
        }
        match b.read_exact(&mut right[..count]) {
            Err(error) if error.kind() == io::ErrorKind::UnexpectedEof => return Ok(false),
            other => other?,
        }
        if left[..count] != right[..count] {
            return Ok(false);
        }
    }
}

/// The folders get the modes that they have, from the innermost on, when all is in them.
fn set_modes(plan: &Plan, from: &Path, out: &Path) -> Result<(), String> {
    let root = PathBuf::new();
    for place in plan.folders.iter().rev().chain([&root]) {
        let folder = out.join(place);
        fs::metadata(from.join(place))
            .and_then(|about| set_mode(&folder, about.permissions()))
            .map_err(|error| format!("{}: {error}", folder.display()))?;
    }
    Ok(())
}

// ---- files that are given one by one

/// The tool glif with files that go to files.
pub fn run_files(job: &FilesJob) -> Status {
    match listed(job) {
        Err(wrong) => {
            complain(&wrong);
            Status::Wrong
        }
        Ok(items) => {
            interrupt::goes_on();
            let outcomes = match Journals::open(&items, &job.recipe) {
                Err(why) => Outcomes::none(&items, why),
                Ok(journals) => {
                    let outcomes = whole::work(&items, job, &journals);
                    if outcomes.stopped.is_none() {
                        journals.remove();
                    }
                    outcomes
                }
            };
            summary::tell(job, &items, &outcomes, summary::Told { what: "file", ..Default::default() })
        }
    }
}

fn listed(job: &FilesJob) -> Result<Vec<Item>, String> {
    if let Some(out) = &job.out {
        fs::create_dir_all(out).map_err(|error| format!("{}: {error}", out.display()))?;
    }
    let mut written: HashMap<PathBuf, &Path> = HashMap::new();
    let mut items = Vec::new();
    for from in &job.inputs {
        let name = from.file_name().ok_or_else(|| format!("{}: is no file", from.display()))?;
        let to = job.out.as_ref().map_or(from.clone(), |out| out.join(name));
        let itself = || matches!((from.canonicalize(), to.canonicalize()), (Ok(a), Ok(b)) if a == b);
        if job.out.is_some() && itself() {
            return Err(format!("{}: is to be read and written; --in-place does that", from.display()));
        }
        if let Some(other) = written.insert(to.clone(), from) {
            let (other, from, to) = (other.display(), from.display(), to.display());
            return Err(format!("{other} and {from} would both be written to {to}"));
        }
        items.push(Item { name: name.to_string_lossy().into_owned(), from: from.clone(), to });
    }
    Ok(items)
}
