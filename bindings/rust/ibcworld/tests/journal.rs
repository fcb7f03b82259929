//! Journals: what is asked durably is there again, and files that are none are refused.
#![cfg(feature = "journal")]

use ibcworld::{CreateClient, Effect, FaultKind, Genesis, Journal, JournalFault, Ledger, Refused};
use std::fs;
use std::path::PathBuf;
use std::thread;

const GENESIS: &str = r#"{"capacity": 64, "chains": [{"name": "a", "time": 100, "balances": [["alice", "atom", "1000"]]},
    {"name": "b", "time": 100, "balances": []}], "steps": []}"#;

/// A file of its own, which is gone with it.
struct File(PathBuf);

impl File {
    fn new(name: &str) -> File {
        let file =
            File(std::env::temp_dir().join(format!("ibcworld-{}-{name}", std::process::id())));
        file.remove();
        file
    }

    fn remove(&self) {
        for ending in ["", "-wal"] {
            let mut name = self.0.clone().into_os_string();
            name.push(ending);
            let _gone = fs::remove_file(name);
        }
    }

    fn open(&self) -> Result<Journal, JournalFault> {
        Journal::open(&self.0, Some(GENESIS))
    }
}

impl Drop for File {
    fn drop(&mut self) {
        self.remove();
    }
}

fn history(ledger: &Ledger) -> Vec<ibcworld::Entry> {
    let history = ledger.history().expect("a history");
    history.collect::<Result<_, _>>().expect("entries")
}

#[test]
fn what_is_asked_is_there_again() -> Result<(), JournalFault> {
    let file = File::new("again.db");
    let mut journal = file.open()?;
    assert_eq!(journal.genesis(), GENESIS);
    assert_eq!(journal.end().entries, 0);
    let client = Effect::Client("inprocess-0".into());
    assert_eq!(journal.apply(0, CreateClient { chain: 1 })?, Ok(client));
    assert_eq!(
        journal.apply(0, CreateClient { chain: 0 })?,
        Err(Refused::OwnChain)
    );
    assert_eq!(
        journal.apply(0, CreateClient { chain: 7 })?,
        Err(Refused::UnknownChain)
    );
    assert_eq!(
        journal.apply(2, CreateClient { chain: 0 })?,
        Err(Refused::NothingThere)
    );
    assert_eq!(journal.apply_bytes(0, b"none")?, Err(Refused::NoMessage));
    assert!(matches!(
        journal.end_block(1, 100)?,
        Ok(Effect::Block { height: 1, .. })
    ));
    assert_eq!(journal.end_block(1, 99)?, Err(Refused::TimeBack));
    assert_eq!(journal.end().entries, 5);

    let [a, b] = journal.ledgers() else {
        panic!("two ledgers")
    };
    a.end_block(100).expect("a block");
    b.apply(CreateClient { chain: 0 }).expect("a client");
    assert_eq!(journal.end().entries, 5);
    journal.commit_by(3)?;
    let end = journal.end();
    assert_eq!((end.entries, end.log_place), (7, 3));
    let histories = [0, 1].map(|chain| history(journal.ledger(chain).expect("a ledger")));
    assert!(journal.ledger(2).is_none());
    drop(journal);

    let again = Journal::open(&file.0, None)?;
    assert_eq!(again.end(), end);
    assert_eq!(
        [0, 1].map(|chain| history(again.ledger(chain).expect("a ledger"))),
        histories
    );
    Ok(())
}

#[test]
fn a_place_of_a_log_comes_once() -> Result<(), JournalFault> {
    let file = File::new("log.db");
    let mut journal = file.open()?;
    for place in [2, 5] {
        journal.ledgers()[0].end_block(100).expect("a block");
        journal.commit_by(place)?;
    }
    journal.ledgers()[0].end_block(100).expect("a block");
    assert_eq!(
        journal.commit_by(5).map_err(|it| it.kind),
        Err(FaultKind::OldPlace)
    );
    journal.commit_by(6)?;
    journal.commit()
}

#[test]
fn ledgers_keep_their_places() -> Result<(), JournalFault> {
    let file = File::new("places.db");
    let mut journal = file.open()?;
    journal.ledgers()[0].end_block(100).expect("a block");
    journal.ledgers().swap(0, 1);
    let refused = FaultKind::Refused(Refused::OtherWorld);
    assert_eq!(journal.commit().map_err(|it| it.kind), Err(refused));
    journal.ledgers().swap(0, 1);
    journal.commit()
}

#[test]
fn what_is_no_journal_is_refused() {
    let file = File::new("none.db");
    let fault = Journal::open(&file.0, None).expect_err("no file");
    assert_eq!(
        (fault.kind, fault.to_string()),
        (FaultKind::NoFile, "there is no such file".into())
    );
    let fault = Journal::open(&file.0, Some("{}")).expect_err("no genesis");
    assert_eq!(fault.kind, FaultKind::BadGenesis);
    assert!(!file.0.exists());
    let journal = file.open().expect("a journal");
    let fault = file.open().expect_err("a journal that is open");
    assert_eq!(fault.kind, FaultKind::Held);
    drop(journal);
    let fault = Journal::open(&file.0, Some(" {}")).expect_err("another genesis");
    assert_eq!(fault.kind, FaultKind::OtherGenesis);
    fs::write(&file.0, "a text").expect("a file");
    let fault = file.open().expect_err("no database");
    assert_eq!(fault.kind, FaultKind::NoDatabase);
    assert!(Journal::open("a\0b", None).is_err());
    assert_eq!(Genesis::read("{}").map(drop), Err(Refused::BadMessage));
    assert!(Genesis::read(GENESIS).and_then(|it| it.world()).is_ok());
}

#[test]
fn a_journal_goes_from_thread_to_thread() -> Result<(), JournalFault> {
    let file = File::new("threads.db");
    let mut journal = file.open()?;
    for _ in 0..3 {
        let asked = thread::spawn(move || {
            let answer = journal.end_block(0, 100);
            (journal, answer)
        });
        let (back, answer) = asked.join().expect("a thread");
        assert!(answer?.is_ok());
        journal = back;
    }
    assert_eq!(journal.end().entries, 3);
    assert!(journal.audit().is_ok());
    assert!(journal.end_block(0, 100)?.is_ok());
    Ok(())
}
