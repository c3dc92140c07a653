//! Nothing is lost: pages, sites and recordings that are somebody else's are never written over, what is written is whole, and
//! a status never says "not done" of what was done.
#![cfg(unix)]
mod common;
use common::{csv, k2, Folder, Ran, KNOWN, PROGRAM};
use std::{
    ffi::{OsStr, OsString},
    fs::{self, File, Permissions},
    io::Write,
    os::unix::{
        ffi::OsStrExt,
        fs::{chown, symlink, FileTypeExt, MetadataExt, PermissionsExt},
        process::CommandExt,
    },
    path::{Path, PathBuf},
    process::{Command, Stdio},
    thread,
    time::Duration,
};

fn with_k2(name: &str) -> Folder {
    let folder = Folder::new(name);
    folder.site("x.site");
    folder.write("k.csv", csv(&k2()));
    folder
}

/// The names of all files in a folder, hidden ones too.
fn names(folder: &Path) -> Vec<String> {
    let entries = fs::read_dir(folder).unwrap().map(|entry| entry.unwrap().file_name().into_string().unwrap());
    let mut names: Vec<String> = entries.collect();
    names.sort();
    names
}

/// Runs the program by way of a shell that first does something and then becomes it.
fn after(folder: &Folder, first: &str, args: &[&str]) -> Ran {
    let script = format!("{first}; exec \"$0\" \"$@\"");
    let ended =
        Command::new("sh").arg("-c").arg(script).arg(PROGRAM).args(args).current_dir(&folder.0).output().unwrap();
    let text = |bytes| String::from_utf8(bytes).unwrap();
    Ran { status: ended.status.code().unwrap(), out: text(ended.stdout), err: text(ended.stderr) }
}

/// No file may grow beyond so many blocks of 512 bytes: what a full disk does, for one program.
fn disk_of(blocks: u32) -> String {
    format!("trap '' XFSZ; ulimit -f {blocks}")
}

#[test]
fn a_page_is_written_over_nothing_but_a_page() {
    let folder = with_k2("keep-page");
    folder.site("other.site");
    folder.write("notes.html", "<!DOCTYPE html>\n<p>mine</p>\n");
    folder.write("empty.html", "");
    fs::create_dir(folder.path("folder")).unwrap();
    symlink("nowhere", folder.path("dangling.html")).unwrap();
    let before = (folder.read("other.site"), folder.read("notes.html"));
    for (out, words) in [
        ("other.site", "other.site: is no page of burrcradle's, and is left as it is (--force writes over it)"),
        ("notes.html", "notes.html: is no page"),
        ("empty.html", "empty.html: is no page"),
        ("folder", "folder: is a folder"),
        ("dangling.html", "dangling.html: a link that leads nowhere"),
    ] {
        folder.bad(&["report", "x.site", "k.csv", "-o", out], words);
    }
    assert_eq!((folder.read("other.site"), folder.read("notes.html")), before);
    assert_eq!(folder.read("empty.html"), "");
    assert!(!folder.path("nowhere").exists());
    // A page of ours is written over, and anything with --force, but never what the page is made from.
    for _ in 0..2 {
        folder.accepted(&["report", "x.site", "k.csv", "-o", "page.html"]);
    }
    folder.accepted(&["report", "x.site", "k.csv", "-o", "notes.html", "--force"]);
    assert!(folder.read("notes.html").starts_with("<!DOCTYPE html>\n<html"));
    for out in ["x.site", "k.csv", "./k.csv"] {
        folder.bad(&["report", "x.site", "k.csv", "-o", out, "--force"], "would overwrite");
    }
    let wanted = ["dangling.html", "empty.html", "folder", "k.csv", "notes.html", "other.site", "page.html", "x.site"];
    assert_eq!(names(&folder.0), wanted, "nothing is left beside");
}

/// What standard input reads is what the page is made from too, and so is a second name of it.
#[test]
fn a_page_is_not_written_over_its_input() {
    let folder = with_k2("keep-input");
    fs::hard_link(folder.path("k.csv"), folder.path("second.csv")).unwrap();
    for out in ["k.csv", "second.csv"] {
        let ran = after(&folder, "exec < k.csv", &["report", "x.site", "-", "-o", out, "--force"]);
        assert!(ran.status == 2 && ran.err.contains("would overwrite what it is made from"), "{ran:?}");
    }
    assert_eq!(folder.read("k.csv"), csv(&k2()));
}

/// A file that comes to be there while the page is made is not ours either.
#[test]
fn a_file_that_comes_meanwhile_is_left() {
    let folder = with_k2("keep-meanwhile");
    let mut slow = folder
        .command(&["report", "x.site", "-", "-o", "page.html"])
        .stdin(Stdio::piped())
        .stderr(Stdio::null())
        .spawn()
        .unwrap();
    let mut input = slow.stdin.take().unwrap();
    input.write_all(b"a,b,c\n").unwrap();
    thread::sleep(Duration::from_millis(200));
    folder.site("page.html");
    input.write_all(&csv(&k2()).as_bytes()[6..]).unwrap();
    drop(input);
    assert_eq!((slow.wait().unwrap().code(), folder.counted("page.html", "total")), (Some(2), 0));
}

/// Names as long as a name may be, and names that are no text.
#[test]
fn any_name_will_do() {
    let folder = Folder::new("keep-names");
    folder.write("k.csv", csv(&k2()));
    let long = "x".repeat(250) + ".site";
    folder.site(&long);
    folder.accepted(&["add", &long, "k.csv"]);
    folder.accepted(&["report", &long, "k.csv", "-o", &("y".repeat(250) + ".html")]);
    assert_eq!(folder.counted(&long, "total"), 5);
    let odd = |bytes: &[u8]| OsStr::from_bytes(bytes).to_os_string();
    let run = |args: &[OsString]| Command::new(PROGRAM).args(args).current_dir(&folder.0).output().unwrap();
    let text = |words: &[&str]| words.iter().map(OsString::from).collect::<Vec<_>>();
    let made = run(&[text(&["new"]), vec![odd(b"\xff.site")], text(&KNOWN)].concat());
    assert!(made.status.success(), "{made:?}");
    fs::write(folder.0.join(odd(b".\xfe.site.123-0.new")), "another site's").unwrap();
    assert!(run(&[text(&["add"]), vec![odd(b"\xff.site")], text(&["k.csv"])].concat()).status.success());
    assert!(folder.0.join(odd(b".\xfe.site.123-0.new")).exists(), "not beside this site");
    let listed = run(&[text(&["list", "k.csv"]), vec![odd(b"--site=\xff.site")]].concat());
    assert!(listed.status.success(), "{listed:?}");
}

#[test]
fn the_mark_of_a_page_is_in_its_first_lines() {
    let folder = with_k2("keep-mark");
    folder.accepted(&["report", "x.site", "k.csv", "-o", "page.html"]);
    let page = folder.read("page.html");
    let first: Vec<&str> = page.lines().take(2).collect();
    assert!(first.join("\n").contains("<meta name=\"generator\" content=\"burrcradle "), "{first:?}");
}

#[test]
fn a_page_keeps_its_link_mode_and_read_only_state() {
    let folder = with_k2("keep-page-mode");
    folder.accepted(&["report", "x.site", "k.csv", "-o", "page.html"]);
    fs::set_permissions(folder.path("page.html"), Permissions::from_mode(0o640)).unwrap();
    symlink("page.html", folder.path("link.html")).unwrap();
    folder.accepted(&["add", "x.site", "k.csv"]);
    folder.accepted(&["report", "x.site", "k.csv", "-o", "link.html"]);
    assert!(fs::symlink_metadata(folder.path("link.html")).unwrap().is_symlink());
    assert!(folder.read("page.html").contains("5 half-cycles"));
    assert_eq!(fs::metadata(folder.path("page.html")).unwrap().mode() & 0o777, 0o640);
    fs::set_permissions(folder.path("page.html"), Permissions::from_mode(0o440)).unwrap();
    folder.bad(&["report", "x.site", "k.csv", "-o", "page.html"], "page.html: is read-only");
    folder.accepted(&["report", "x.site", "k.csv", "-o", "page.html", "--force"]);
}

#[test]
fn a_page_goes_to_standard_output_or_down_a_pipe() {
    let folder = with_k2("keep-page-out");
    let page = folder.accepted(&["report", "x.site", "k.csv", "-o", "-"]);
    assert!(page.starts_with("<!DOCTYPE html>\n") && page.ends_with("</html>\n"));
    assert!(!folder.path("-").exists());
    assert!(Command::new("mkfifo").arg(folder.path("pipe")).status().unwrap().success());
    thread::scope(|scope| {
        let reader = scope.spawn(|| folder.read("pipe"));
        assert_eq!(
            folder.accepted(&["report", "x.site", "k.csv", "-o", "pipe"]),
            "",
            "the page is all there is to say"
        );
        assert!(reader.join().unwrap().ends_with("</html>\n"));
    });
    assert!(fs::metadata(folder.path("pipe")).unwrap().file_type().is_fifo(), "a pipe stays a pipe");
}

#[test]
fn a_full_disk_leaves_the_old_page_whole() {
    let folder = with_k2("keep-full");
    folder.accepted(&["report", "x.site", "k.csv", "-o", "page.html"]);
    let before = folder.read("page.html");
    for out in ["page.html", "new.html"] {
        let ran = after(&folder, &disk_of(8), &["report", "x.site", "k.csv", "-o", out]);
        assert_eq!(ran.status, 2, "{ran:?}");
        assert!(ran.err.contains(&format!("{out}: the page could not be written: ")), "{ran:?}");
    }
    assert_eq!(folder.read("page.html"), before);
    assert_eq!(names(&folder.0), ["k.csv", "page.html", "x.site"], "no half-made file");
}

#[test]
fn the_demo_writes_over_nothing_of_yours() {
    let folder = Folder::new("keep-demo");
    folder.write("demo.html", "mine");
    folder.bad(&["demo"], "demo.html: is no page of burrcradle's");
    assert_eq!(folder.read("demo.html"), "mine");
    folder.accepted(&["demo", "--force"]);
    folder.accepted(&["demo", "--save"]);
    folder.accepted(&["demo", "--save"]);
    let page = folder.read("demo.html");
    folder.write("demo-2-gap.csv", "a,b,c\n1,2,3\n");
    for force in [&[][..], &["--force"]] {
        folder.bad(&[&["demo", "--save"][..], force].concat(), "demo-2-gap.csv: there is another file of this name");
    }
    assert_eq!(
        (folder.read("demo-2-gap.csv"), folder.read("demo.html")),
        ("a,b,c\n1,2,3\n".into(), page),
        "nor anything else"
    );
    let empty = Folder::new("keep-demo-none");
    empty.write("demo-3-blackout.csv", "mine");
    empty.bad(&["demo", "--save"], "demo-3-blackout.csv: there is another file");
    assert_eq!(names(&empty.0), ["demo-3-blackout.csv"], "all is looked at before anything is written");
}

/// A link that lies where the new table would be written is not followed, whatever name is tried.
#[test]
fn a_link_beside_a_site_is_not_followed() {
    let folder = with_k2("keep-link");
    folder.write("victim", "precious");
    symlink("victim", folder.path(".x.site.new")).unwrap();
    let ran = after(&folder, "ln -s victim .x.site.$$-0.new", &["add", "x.site", "k.csv"]);
    assert_eq!((ran.status, folder.counted("x.site", "total")), (0, 5), "{ran:?}");
    assert_eq!(folder.read("victim"), "precious");
    assert!(!fs::symlink_metadata(folder.path("x.site")).unwrap().is_symlink());
    let ran = after(&folder, "ln -s victim .page.html.$$-0.new", &["report", "x.site", "k.csv", "-o", "page.html"]);
    assert_eq!((ran.status, folder.read("victim")), (0, "precious".into()), "{ran:?}");
    let ran = after(&folder, "ln -s victim .y.site.$$-0.new", &[&["new", "y.site"][..], &KNOWN].concat());
    assert_eq!(
        (ran.status, folder.read("victim"), folder.counted("y.site", "total")),
        (0, "precious".into(), 0),
        "{ran:?}"
    );
}

/// What a kill has left beside a site goes with the next add; what is not ours stays.
#[test]
fn leftovers_of_a_kill_are_swept() {
    let folder = with_k2("keep-swept");
    folder.write(".x.site.4711-0.new", "burrcradle site 4\nn 8\nr 10");
    for other in [".x.site.new", ".x.site.47-11-0.new", ".y.site.4711-0.new", "x.site.4711-0.new"] {
        folder.write(other, "mine");
    }
    folder.accepted(&["add", "x.site", "k.csv"]);
    assert_eq!(folder.counted("x.site", "total"), 5);
    let wanted = [".x.site.47-11-0.new", ".x.site.new", ".y.site.4711-0.new", "k.csv", "x.site", "x.site.4711-0.new"];
    assert_eq!(names(&folder.0), wanted);
}

#[test]
fn a_full_disk_leaves_the_old_table() {
    let folder = with_k2("keep-full-site");
    folder.accepted(&["add", "x.site", "k.csv"]);
    let before = folder.read("x.site");
    let ran = after(&folder, &disk_of(0), &["add", "x.site", "k.csv"]);
    assert_eq!(ran.status, 2, "{ran:?}");
    assert!(ran.err.contains("burrcradle: x.site: the new table could not be written: "), "{ran:?}");
    assert!(ran.err.contains("the old one stands") && !ran.err.contains(".new"), "{ran:?}");
    assert_eq!(folder.read("x.site"), before);
    let ran = after(&folder, &disk_of(0), &[&["new", "y.site"][..], &KNOWN].concat());
    assert_eq!(ran.status, 2, "{ran:?}");
    assert_eq!(names(&folder.0), ["k.csv", "x.site"]);
}

/// Done, but the answer could not be printed: a status of its own, so that no script tries again and counts twice.
#[test]
fn what_was_done_is_told_as_done() {
    let folder = with_k2("keep-done");
    let full = |args: &[&str]| {
        let out = File::options().write(true).open("/dev/full").unwrap();
        let ended = folder.command(args).stdin(Stdio::null()).stdout(out).stderr(Stdio::piped()).output().unwrap();
        (ended.status.code().unwrap(), String::from_utf8(ended.stderr).unwrap())
    };
    let (status, said) = full(&["add", "x.site", "k.csv"]);
    assert!(
        said.contains("x.site: the table was written, but the answer could not be printed: standard output: "),
        "{said}"
    );
    assert_eq!((status, folder.counted("x.site", "total")), (3, 5));
    let (status, said) = full(&[&["new", "y.site"][..], &KNOWN].concat());
    assert_eq!((status, folder.counted("y.site", "total")), (3, 0), "{said}");
    assert!(said.contains("y.site: the table was written"), "{said}");
    let (status, said) = full(&["report", "x.site", "k.csv", "-o", "page.html"]);
    assert!(
        status == 3 && said.contains("page.html: the page was written") && folder.path("page.html").exists(),
        "{said}"
    );
    assert_eq!(full(&["demo"]).0, 3);
    for args in
        [&["show", "x.site"][..], &["list", "k.csv", "--site", "x.site"], &["report", "x.site", "k.csv", "-o", "-"]]
    {
        let (status, said) = full(args);
        assert!(status == 2 && said.contains("standard output: ") && !said.contains("written"), "{args:?}: {said}");
    }
    // A reader that stops early has what it wanted.
    let mut child = folder.command(&["add", "x.site", "k.csv"]).stdout(Stdio::piped()).spawn().unwrap();
    drop(child.stdout.take());
    assert_eq!((child.wait().unwrap().code(), folder.counted("x.site", "total")), (Some(0), 10));
    for text in [folder.accepted(&["--help"]), folder.accepted(&["add", "--help"])] {
        assert!(
            text.contains("3 done, but the answer could not be printed") || text.contains("exit status 3"),
            "{text}"
        );
    }
}

#[test]
fn a_read_only_site_is_left() {
    let folder = with_k2("keep-read-only");
    fs::set_permissions(folder.path("x.site"), Permissions::from_mode(0o444)).unwrap();
    let before = folder.read("x.site");
    folder.bad(&["add", "x.site", "k.csv"], "x.site: the site is read-only, and is left as it is");
    assert_eq!((folder.read("x.site"), names(&folder.0)), (before, vec!["k.csv".to_string(), "x.site".into()]));
    folder.accepted(&["show", "x.site"]);
}

/// Nobody waits for a lock while input comes in, and what is wrong with the site is told before any comes.
#[test]
fn standard_input_is_read_before_the_lock() {
    let folder = with_k2("keep-stdin");
    let mut slow = folder.command(&["add", "x.site", "-"]).stdin(Stdio::piped()).stdout(Stdio::null()).spawn().unwrap();
    let mut input = slow.stdin.take().unwrap();
    input.write_all(b"a,b,c\n").unwrap();
    thread::sleep(Duration::from_millis(300));
    folder.accepted(&["add", "x.site", "k.csv", "--wait", "0"]);
    input.write_all(&csv(&k2()).as_bytes()[6..]).unwrap();
    drop(input);
    assert_eq!((slow.wait().unwrap().code(), folder.counted("x.site", "total")), (Some(0), 10));
    let mut none =
        folder.command(&["add", "none.site", "-"]).stdin(Stdio::piped()).stderr(Stdio::null()).spawn().unwrap();
    let input = none.stdin.take();
    assert_eq!(none.wait().unwrap().code(), Some(2), "told while the input is still open");
    drop(input);
}

/// A folder that two users share, with a copy of the program that both may run. It needs root, which CI's machine has.
struct Shared(PathBuf);

const OTHER: u32 = 54_321;

impl Shared {
    fn new(name: &str) -> Option<Shared> {
        let root = fs::metadata("/proc/self").is_ok_and(|own| own.uid() == 0);
        if !root {
            eprintln!("not root: nobody else to be");
            return None;
        }
        let path = std::env::temp_dir().join(format!("burrcradle-{name}-{}", std::process::id()));
        let _ = fs::remove_dir_all(&path);
        fs::create_dir(&path).unwrap();
        fs::set_permissions(&path, Permissions::from_mode(0o777)).unwrap();
        // By a process of its own: while this one writes a copy, another test may start a child, which then holds it open, and what
        // is open for writing can't be run ("text file busy").
        assert!(Command::new("cp").arg(PROGRAM).arg(path.join("burrcradle")).status().unwrap().success());
        fs::write(path.join("k.csv"), csv(&k2())).unwrap();
        let shared = Shared(path);
        assert_eq!(shared.run(0, &[&["new", "x.site"][..], &KNOWN].concat()).0, 0);
        Some(shared)
    }

    fn run(&self, user: u32, args: &[&str]) -> (i32, String) {
        let mut command = Command::new(self.0.join("burrcradle"));
        command.args(args).current_dir(&self.0).uid(user).gid(user).stdin(Stdio::null()).stdout(Stdio::null());
        let ended = command.stderr(Stdio::piped()).output().unwrap();
        (ended.status.code().unwrap(), String::from_utf8(ended.stderr).unwrap())
    }

    fn mode(&self, file: &str, mode: u32) {
        fs::set_permissions(self.0.join(file), Permissions::from_mode(mode)).unwrap();
    }

    /// Owner, group and mode of the site, and its total.
    fn site(&self) -> (u32, u32, u32, String) {
        let (found, text) =
            (fs::metadata(self.0.join("x.site")).unwrap(), fs::read_to_string(self.0.join("x.site")).unwrap());
        let total = text.lines().find(|line| line.starts_with("total ")).unwrap().to_string();
        (found.uid(), found.gid(), found.mode() & 0o777, total)
    }
}

impl Drop for Shared {
    fn drop(&mut self) {
        let _ = fs::remove_dir_all(&self.0);
    }
}

#[test]
fn the_owner_stays() {
    let Some(shared) = Shared::new("owner") else { return };
    chown(shared.0.join("x.site"), Some(OTHER), Some(OTHER + 1)).unwrap();
    shared.mode("x.site", 0o640);
    assert_eq!(shared.run(0, &["add", "x.site", "k.csv"]).0, 0);
    assert_eq!(shared.site(), (OTHER, OTHER + 1, 0o640, "total 5".into()));
    assert_eq!(shared.run(0, &["report", "x.site", "k.csv", "-o", "page.html"]).0, 0);
    chown(shared.0.join("page.html"), Some(OTHER), Some(OTHER)).unwrap();
    assert_eq!(shared.run(0, &["report", "x.site", "k.csv", "-o", "page.html"]).0, 0);
    assert_eq!(fs::metadata(shared.0.join("page.html")).unwrap().uid(), OTHER);
    // Who may not write to a page does not replace it.
    chown(shared.0.join("page.html"), Some(0), Some(0)).unwrap();
    shared.mode("x.site", 0o644);
    let (status, said) = shared.run(OTHER, &["report", "x.site", "k.csv", "-o", "page.html"]);
    assert!(status == 2 && said.contains("page.html: can't be written to: Permission denied"), "{said}");
}

/// Whoever may write to the site can add to it, whoever added before; the group that had leave keeps it.
#[test]
fn a_second_user_can_add() {
    let Some(shared) = Shared::new("second") else { return };
    shared.mode("x.site", 0o666);
    assert_eq!(shared.run(0, &["add", "x.site", "k.csv"]).0, 0);
    let (status, said) = shared.run(OTHER, &["add", "x.site", "k.csv"]);
    assert_eq!((status, shared.site().3), (0, "total 10".into()), "{said}");
    // Its own group's file: the owner can't be kept, the group can, and it keeps its leave.
    chown(shared.0.join("x.site"), Some(0), Some(OTHER)).unwrap();
    shared.mode("x.site", 0o660);
    let (status, said) = shared.run(OTHER, &["add", "x.site", "k.csv"]);
    assert_eq!((status, shared.site()), (0, (OTHER, OTHER, 0o660, "total 15".into())), "{said}");
    // A group that can't be kept: the new one gets no more than everybody has.
    chown(shared.0.join("x.site"), Some(OTHER), Some(0)).unwrap();
    shared.mode("x.site", 0o664);
    let (status, said) = shared.run(OTHER, &["add", "x.site", "k.csv"]);
    assert_eq!((status, shared.site()), (0, (OTHER, OTHER, 0o644, "total 20".into())), "{said}");
    assert_eq!(names(&shared.0), ["burrcradle", "k.csv", "x.site"], "no lock and nothing else is left");
}

/// Where there is no leave the site is named, not a hidden file.
#[test]
fn errors_name_the_site() {
    let Some(shared) = Shared::new("named") else { return };
    shared.mode("x.site", 0o644);
    let (status, said) = shared.run(OTHER, &["add", "x.site", "k.csv"]);
    assert!(status == 2 && said.starts_with("burrcradle: x.site: can't be written to: Permission denied"), "{said}");
    shared.mode("x.site", 0o666);
    shared.mode(".", 0o755);
    let (status, said) = shared.run(OTHER, &["add", "x.site", "k.csv"]);
    assert!(
        status == 2 && said.starts_with("burrcradle: x.site: the new table could not be written: Permission"),
        "{said}"
    );
    assert!(!said.contains("/.") && !said.contains(".new") && !said.contains(".lock"), "{said}");
    assert_eq!(shared.site().3, "total 0");
    // A folder that can't be listed can't be synced: what was renamed is done all the same.
    shared.mode(".", 0o733);
    let (status, said) = shared.run(OTHER, &["add", "x.site", "k.csv"]);
    assert_eq!((status, shared.site().3), (0, "total 5".into()), "{said}");
}
