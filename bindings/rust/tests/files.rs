//! Files that are read and written: what fails is told, and no sheet is lost by it.

mod common;
use common::*;
use std::fs::{self, File, OpenOptions, Permissions};
use std::io::{self, ErrorKind, Read, Write};
use std::os::fd::AsRawFd;
use std::os::unix::fs::{MetadataExt, PermissionsExt};
use std::os::unix::process::CommandExt;
use std::path::{Path, PathBuf};
use std::process::Command;
use std::{env, process, thread};
use zibrotka::{Error, ReadError, Refusal, Sheet};

/// The variable that names the file that a test writes when it runs in a process of its own.
const ALONE: &str = "ZIBROTKA_TEST_WRITES";

/// A file of a test's own, where nothing is yet.
fn place(name: &str) -> PathBuf {
    env::temp_dir().join(format!("zibrotka-{}-{name}", process::id()))
}

fn file(name: &str, bytes: &[u8]) -> PathBuf {
    fs::write(place(name), bytes).unwrap();
    place(name)
}

/// Tells `check` what was left out; what a test prints otherwise is not shown where it passes.
fn not_done(what: &str) {
    io::stderr().write_all(format!("rust: not done here: {what}\n").as_bytes()).unwrap();
}

/// Writes a file and tells how that went.
fn write_alone(path: impl AsRef<Path>) {
    println!("told: {:?}.", triangle().write(path).map_err(|error| error.kind()));
}

/// Runs a test alone, by a command that begins its program, and tells how the writing went; none where that user may run nothing.
fn alone(mut command: Command, test: &str, path: &Path) -> Option<String> {
    let done = command.args([test, "--exact", "--nocapture"]).env(ALONE, path).output().ok()?;
    let said = String::from_utf8(done.stdout).unwrap();
    let told = said.split_once("told: ").and_then(|(_, rest)| rest.split_once(".\n"));
    Some(told.unwrap_or_else(|| panic!("{said}")).0.to_string())
}

#[test]
fn a_sheet_comes_back() {
    for name in names() {
        let bytes = fs::read(shared("sheets").join(name)).unwrap();
        let Ok(sheet) = Sheet::from_bytes(&bytes) else { continue };
        assert_eq!(sheet.to_bytes(), bytes);
        assert_eq!(Sheet::from_edges(sheet.n_vertices(), sheet.edges(), sheet.triangles(), sheet.truncation()), Ok(sheet.clone()));
        for held in [&b""[..], &[7; 11], &[7; 2000]] {
            let path = file("back", held);
            sheet.write(&path).unwrap();
            assert_eq!(fs::read(&path).unwrap(), bytes);
            assert_eq!(Sheet::read(&path).unwrap(), sheet);
            fs::remove_file(path).unwrap();
        }
    }
}

#[test]
fn a_new_file_and_one_with_two_names() {
    let (first, second) = (place("first"), place("second"));
    triangle().write(&first).unwrap();
    fs::hard_link(&first, &second).unwrap();
    shipped("tetrahedron.gls").write(&second).unwrap();
    assert_eq!(Sheet::read(&first).unwrap(), shipped("tetrahedron.gls"));
    triangle().write(&first).unwrap();
    assert_eq!(fs::read(&second).unwrap(), TRIANGLE);
    [first, second].iter().for_each(|path| fs::remove_file(path).unwrap());
}

#[test]
fn where_nothing_can_be_written_the_old_sheet_stays() {
    if let Some(path) = env::var_os(ALONE) {
        return write_alone(path);
    }
    let path = file("old", &shipped("tetrahedron.gls").to_bytes());
    let mut limited = Command::new("sh");
    limited.args(["-c", "trap '' XFSZ; ulimit -f 0; exec \"$0\" \"$@\""]).arg(env::current_exe().unwrap());
    let told = alone(limited, "where_nothing_can_be_written_the_old_sheet_stays", &path).unwrap();
    assert_eq!(told, format!("Err({:?})", ErrorKind::FileTooLarge));
    assert_eq!(Sheet::read(&path).unwrap(), shipped("tetrahedron.gls"));
    fs::remove_file(path).unwrap();
}

#[test]
fn a_file_that_is_write_protected_stays() {
    if let Some(path) = env::var_os(ALONE) {
        return write_alone(path);
    }
    let path = file("protected", b"what was there");
    fs::set_permissions(&path, Permissions::from_mode(0o444)).unwrap();
    // root may write everything, and its programs may lie where no other user comes
    let copy = place("tests");
    assert!(Command::new("cp").arg(env::current_exe().unwrap()).arg(&copy).status().unwrap().success());
    let mut user = Command::new(&copy);
    if fs::metadata(&path).unwrap().uid() == 0 {
        user.uid(65534).gid(65534).current_dir("/");
    }
    match alone(user, "a_file_that_is_write_protected_stays", &path) {
        Some(told) => assert_eq!(told, format!("Err({:?})", ErrorKind::PermissionDenied)),
        None => not_done("a write-protected file, for there is no user but root"),
    }
    assert_eq!(fs::read(&path).unwrap(), b"what was there");
    [path, copy].iter().for_each(|path| fs::remove_file(path).unwrap());
}

#[test]
fn standard_output_is_written_from_where_it_stands() {
    if let Some(path) = env::var_os(ALONE) {
        print!("before ");
        return write_alone(path);
    }
    let path = place("printed");
    let mut own = Command::new(env::current_exe().unwrap());
    own.args(["standard_output_is_written_from_where_it_stands", "--exact", "--nocapture"]).env(ALONE, "/dev/stdout");
    assert!(own.stdout(File::create(&path).unwrap()).status().unwrap().success());
    let (printed, wanted) = (fs::read(&path).unwrap(), [b"before ", &TRIANGLE[..], b"told: Ok(())."].concat());
    assert!(printed.windows(wanted.len()).any(|part| part == wanted), "{}", String::from_utf8_lossy(&printed));
    fs::remove_file(path).unwrap();
}

#[test]
fn devices_and_folders_are_written_as_they_are() {
    triangle().write("/dev/null").unwrap();
    assert_eq!(triangle().write("/dev/full").unwrap_err().kind(), ErrorKind::StorageFull);
    assert_eq!(triangle().write(env::temp_dir()).unwrap_err().kind(), ErrorKind::IsADirectory);
    let (mut reader, writer) = io::pipe().unwrap();
    triangle().write(format!("/dev/fd/{}", writer.as_raw_fd())).unwrap();
    drop(writer);
    let mut written = Vec::new();
    reader.read_to_end(&mut written).unwrap();
    assert_eq!(written, TRIANGLE);
}

#[test]
fn a_file_that_cannot_be_read() {
    let error = Sheet::read(env::temp_dir().join("zibrotka/no/such/file")).unwrap_err();
    assert!(matches!(&error, ReadError::Io(why) if why.kind() == ErrorKind::NotFound));
    assert!(error.to_string().starts_with("the file could not be read: "));
    assert!(std::error::Error::source(&error).is_some());
    assert_eq!(error.refusal(), None);
    let error = Sheet::read(env::temp_dir()).unwrap_err();
    assert!(matches!(&error, ReadError::Io(why) if why.kind() == ErrorKind::IsADirectory));
}

#[test]
fn a_file_that_is_refused() {
    let path = file("damaged", &TRIANGLE[..19]);
    let error = Sheet::read(&path).unwrap_err();
    fs::remove_file(path).unwrap();
    assert_eq!(error.refusal(), Some(Refusal::WrongLength));
    assert_eq!(error.to_string(), Error::Refused(Refusal::WrongLength).to_string());
    assert!(error.to_string().starts_with("refused 6: the length does not fit the counts: "));
}

#[test]
fn a_long_file_is_not_read_whole() {
    let path = file("long", &TRIANGLE);
    let file = OpenOptions::new().append(true).open(&path).unwrap();
    file.set_len(1 << 40).unwrap();
    assert_eq!(Sheet::read(&path).unwrap_err().refusal(), Some(Refusal::WrongLength));
    fs::remove_file(path).unwrap();
    let endless = Sheet::read("/dev/zero");
    assert_eq!(endless.unwrap_err().refusal(), Some(Refusal::NoMark));
}

#[test]
fn one_byte_more_than_the_largest_sheet_is_refused() {
    let mut bytes = [&TRIANGLE[..], &[0; 886]].concat();
    bytes[6..9].copy_from_slice(&[63, 0, 1]);
    assert_eq!(bytes.len(), 906);
    let path = file("906", &bytes);
    assert_eq!(Sheet::read(&path).unwrap_err().refusal(), Some(Refusal::WrongLength));
    File::create(&path).unwrap().write_all(&bytes[..905]).unwrap();
    assert_eq!(Sheet::read(&path).unwrap_err().refusal(), Some(Refusal::WrongEdge));
    fs::remove_file(path).unwrap();
}

#[test]
fn a_sheet_comes_by_a_pipe_in_parts() {
    let path = place("pipe");
    assert!(Command::new("mkfifo").arg(&path).status().unwrap().success());
    let name = path.clone();
    let writer = thread::spawn(move || {
        let mut pipe = OpenOptions::new().write(true).open(name).unwrap();
        TRIANGLE.iter().for_each(|&byte| pipe.write_all(&[byte]).unwrap());
    });
    assert_eq!(Sheet::read(&path).unwrap(), triangle());
    writer.join().unwrap();
    fs::remove_file(path).unwrap();
}

#[test]
fn of_a_pipe_906_bytes_are_taken() {
    let (mut reader, mut writer) = io::pipe().unwrap();
    writer.write_all(&[&TRIANGLE[..], &[9; 2000]].concat()).unwrap();
    // the writer is still there, so that whoever waits for the end waits for ever
    let error = Sheet::read(format!("/dev/fd/{}", reader.as_raw_fd())).unwrap_err();
    assert_eq!(error.refusal(), Some(Refusal::WrongLength));
    drop(writer);
    let mut left = Vec::new();
    reader.read_to_end(&mut left).unwrap();
    assert_eq!(left.len(), 2020 - 906);
}
