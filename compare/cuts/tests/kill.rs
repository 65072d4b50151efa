//! A process that commits to real files, killed twenty times.
use std::process::Command;

#[test]
fn nothing_acknowledged_is_lost_and_nothing_is_mixed() {
    let folder = std::env::temp_dir().join(format!("cuts-kill-{}", std::process::id()));
    let mut program = Command::new(env!("CARGO_BIN_EXE_cuts"));
    let ended = program.arg("kill").arg(&folder).arg("20").output().unwrap();
    let output = String::from_utf8_lossy(&ended.stdout);
    assert!(ended.status.success(), "{output}");
    assert!(output.contains("20 kills, 0 differences"), "{output}");
    std::fs::remove_dir_all(folder).unwrap();
}
