//! Instructions of a call, counted by callgrind. The program starts itself for one benchmark and one side, with R and with 2R calls; the difference of the two
//! totals is that of R calls, without the making of the inputs and all that is done once.
use crate::pair::SIDES;
use std::process::Command;

/// The word that asks for the counting mode. Then: the word of a list, the benchmark's index in it, the side's, and the passes over the inputs.
pub const COUNT: &str = "count";

// `rep` instructions count as one for each byte, which says nothing of their cost: glibc is asked to move and to clear memory without them.
const TUNABLES: &str = "glibc.cpu.x86_rep_movsb_threshold=1000000000:glibc.cpu.x86_rep_stosb_threshold=1000000000";

/// Why there are no counts, if there are none.
pub fn unavailable() -> Option<String> {
    match Command::new("valgrind").arg("--version").output() {
        Err(error) => Some(format!("valgrind does not start: {error}")),
        Ok(output) if !output.status.success() => Some("valgrind --version fails".into()),
        Ok(_) => None,
    }
}

fn collected(words: &[&str], passes: usize) -> f64 {
    let mut command = Command::new("valgrind");
    command.env("GLIBC_TUNABLES", TUNABLES).args(["--tool=callgrind", "--callgrind-out-file=/dev/null"]);
    command.arg(std::env::current_exe().expect("the program's own path"));
    command.args(words).arg(passes.to_string());
    let output = command.output().expect("valgrind starts");
    let text = String::from_utf8_lossy(&output.stderr);
    assert!(output.status.success(), "{text}");
    let line = text.lines().find(|line| line.contains("Collected :")).expect("callgrind tells its total");
    line.split(' ').next_back().and_then(|total| total.parse().ok()).expect("a number")
}

/// Of a call, where the program makes so many of them in a pass, and as many passes as it is told after these words.
pub fn count_call(words: &[&str], passes: usize, calls: usize) -> f64 {
    (collected(words, 2 * passes) - collected(words, passes)) / (passes * calls) as f64
}

/// Ours and the other's, of a list's benchmark. A pass has so many calls.
pub fn count(list: &str, index: usize, passes: usize, calls: usize) -> [f64; 2] {
    SIDES.map(|side| count_call(&[COUNT, list, &index.to_string(), &(side as usize).to_string()], passes, calls))
}
