//! The child of a fork drops what it has of its parent's file, as one that ends normally does. It is the only test
//! here: the child has the locks of other tests' files too.

use hlcstore_file::{File, Options, Result};
use std::{env, fs, process, ptr};

unsafe extern "C" {
    fn fork() -> i32;
    fn waitpid(process: i32, status: *mut i32, options: i32) -> i32;
    fn _exit(status: i32) -> !;
}

#[test]
fn child_of_a_fork_drops_nothing_of_its_parent() -> Result<()> {
    let folder = env::temp_dir().join(format!("hlcstore-file-{}-forks", process::id()));
    fs::create_dir_all(&folder).unwrap();
    // Without a thread in the background, for which the child could wait.
    let file = Options::new().checkpoint_bytes(u64::MAX).open(folder.join("store.hlc"))?;
    (0..100).try_for_each(|key| file.write([key], b"before").map(drop))?;
    let snapshot = file.snapshot()?;
    // SAFETY: the child only drops what it has, and ends.
    let child = unsafe { fork() };
    if child == 0 {
        drop(snapshot);
        drop(file);
        unsafe { _exit(0) }
    }
    // SAFETY: the status may be null.
    assert_eq!(unsafe { waitpid(child, ptr::null_mut(), 0) }, child);
    (0..100).try_for_each(|key| file.write([key], b"after").map(drop))?;
    assert_eq!(snapshot.get([99])?.as_deref(), Some(&b"before"[..]));
    drop(snapshot);
    file.close()?;
    let file = File::open(folder.join("store.hlc"))?;
    assert!(file.snapshot()?.iter().all(|pair| pair.is_ok_and(|(_, value)| value == b"after")));
    drop(file);
    fs::remove_dir_all(&folder).unwrap();
    Ok(())
}
