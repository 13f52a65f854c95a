//! Whole scripts: those of the folder VECTORS and the folders in it, and the edges P1 to
//! P12 of document 01 that a script can reach (P9 is in records.rs), with those of queues.

use outside::script::replay;
use std::fs;
use std::path::Path;

fn log_of(script: &[u8]) -> Vec<u8> {
    let mut log = Vec::new();
    replay(script, &mut log).unwrap();
    log
}

#[test]
fn every_script_replays_to_its_log() {
    let Ok(folder) = std::env::var("VECTORS") else {
        println!("skipped: VECTORS names no folder of scripts and logs");
        return;
    };
    let scripts = replay_all(folder.as_ref());
    assert!(scripts > 0);
    println!("{scripts} scripts replayed to their logs");
}

/// Every script of the folder and of those in it; gives how many there were.
fn replay_all(folder: &Path) -> usize {
    let mut scripts = 0;
    for entry in fs::read_dir(folder).unwrap() {
        let path = entry.unwrap().path();
        if path.is_dir() {
            scripts += replay_all(&path);
        } else if path.extension().is_some_and(|extension| extension == "script") {
            let right = fs::read(path.with_extension("log")).unwrap();
            assert!(log_of(&fs::read(&path).unwrap()) == right, "{}", path.display());
            scripts += 1;
        }
    }
    scripts
}

/// Lines parted by commas, tabs as spaces; the log's last lines are the right ones.
fn check(script: &str, last: &str) {
    let plain = |text: &str| text.replace(',', "\n").replace(' ', "\t") + "\n";
    let log = String::from_utf8(log_of(plain(&format!("kernel 1,{script}")).as_bytes())).unwrap();
    assert!(log.ends_with(&("\n".to_string() + &plain(last))), "{script}: {log}");
}

#[test]
fn edges() {
    check("tick", "4 0 -"); // P1
    check("start,yield", "0 0 -,5 0 -"); // P2
    check("task 31,task 32", "0 0 -,7 0 -"); // P3
    check(&["task 1"; 17].join(","), "0 15 -,8 0 -"); // P4
    check("task 1,mutex 0,start,lock 0 5,lock 0 5,lock 0 0", "0 0 0,9 0 0,9 0 0"); // P5
    let ring = "task 1,task 2,mutex 0,mutex 0,start,sleep 1,lock 1 0,tick,lock 0 0,sleep 1";
    check(&format!("{ring},lock 0 9,tick,lock 1 5,lock 1 0"), "1 1 -,0 0 0,12 1 0,3 0 0"); // P6
    let chain = "start,sleep 9,sleep 2,lock 0 0,tick,tick,lock 1 0,lock 0 99,sleep 99";
    let ticks = ["tick"; 7].join(",");
    for (kind, level) in [(1, 2), (0, 9)] {
        let script = format!("task 9,task 5,task 2,mutex {kind},mutex 1,{chain},{ticks}");
        // P7, P8
        check(&format!("{script},lock 1 50,level 0,level 1"), &format!("1 2 -,0 {level} -,0 2 -"));
    }
    check("sem 1 1,start,post 0", "0 0 -,2 0 -"); // P10
    let held = "task 1,task 2,mutex 0,start,sleep 1,lock 0 0,tick,hold";
    check(&format!("{held},lock 0 5,lock 0 0"), "0 0 0,11 0 0,3 0 0"); // P11
    check("task 4,task 4,task 1,start,sleep 1,tick,sleep 1", "0 0 2,1 0 0,0 0 2,1 0 0"); // P12
    let holds = ["hold"; 256].join(",");
    check(&format!("task 1,start,{holds}"), "0 0 0,13 0 0");
    check("task 1,sem 0 1,start,pend 0 2147483648,pend 0 2147483647", "7 0 0,1 0 -");
}

#[test]
fn queue_edges() {
    let queue = |rest: &str| format!("task 5,task 7,{rest}");
    check(&queue("queue 1 1,queue 3 1,queue 8 64,queue 8 65"), "0 0 -,7 0 -,0 1 -,7 0 -");
    check(&queue("queue 1 0,queue 1 1 1,queue 1 1 2,queue 3 1 2"), "7 0 -,0 0 -,6 0 -,6 0 -");
    // Eight queues of 8 times 64 words fill the block of 4096 words.
    check(&vec!["queue 8 64"; 9].join(","), "0 6 -,0 7 -,8 0 -");
    // The numbers of words that make a send at all, and those that fit the queue.
    let words = |n: usize| format!("send 0 0{}", " 1".repeat(n));
    let sends = [0, 9, 1, 8].map(words).join(",");
    check(&queue(&format!("queue 8 1,start,{sends}")), "14 0 0,14 0 0,7 0 0,0 0 0");
    check(&queue("word 0 7,word 0 8,word 2 8"), "0 0 -,7 0 -,6 0 -");
    // The owner sends to its own queue while it has room.
    let owned = "queue 1 1 0,start,send 0 9 1,send 0 9 2,hold,send 0 0 2,free";
    check(&queue(owned), "0 0 0,9 0 0,0 0 0,9 0 0,0 0 0");
    // A sender lends its level to the owner till its message is taken in.
    let lent = "task 7,task 5,queue 1 1 0,start,send 0 0 1,send 0 9 2,level 0";
    check(
        &format!("{lent},receive 0 0,level 0,outcome 1,word 0 0"),
        "1 1 0,0 5 0,0 0 1,0 7 1,0 0 1,0 1 1",
    );
    // A line of 160 bytes is read, though no step has so many.
    check(&format!("{},{},start", "x".repeat(160), "x".repeat(161)), "14 0 -,14 0 -,0 0 -");
}
