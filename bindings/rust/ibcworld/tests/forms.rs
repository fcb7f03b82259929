//! Forms of ICS 23 are, byte for byte, those that a program in C wrote: the folder `IBCWORLD_FORMS` has its root, and of each proof the form and the
//! key (tests/library/ics23.c of the library's repository). Without that variable nothing is compared.
use ibcworld::{CreateClient, Genesis, Proof, Refused};
use std::path::{Path, PathBuf};

const TIME: u64 = 100;

fn read(folder: &Path, name: &str) -> Option<Vec<u8>> {
    std::fs::read(folder.join(name)).ok()
}

#[test]
fn forms_are_those_that_c_wrote() -> Result<(), Refused> {
    let folder = match std::env::var_os("IBCWORLD_FORMS") {
        Some(named) => PathBuf::from(named),
        None => return Ok(()),
    };
    let mut genesis = Genesis::new(64, 64)?;
    genesis.add_chain(TIME)?;
    genesis.add_chain(TIME)?;
    let mut world = genesis.world()?;
    let mut ledger = world.take()?.expect("two chains");
    for _ in 0..9 {
        ledger.apply(CreateClient { chain: 1 })?;
    }
    ledger.end_block(TIME)?;
    let view = ledger.view()?;
    assert_eq!(read(&folder, "root"), Some(view.root()?.to_vec()));
    let mut count = 0;
    while let Some(form) = read(&folder, &format!("{count}.ics23")) {
        let key = read(&folder, &format!("{count}.key")).expect("a key beside its form");
        let path = String::from_utf8(key).expect("a path");
        let proof = view.proof(&path)?;
        assert_eq!(proof.to_ics23()?, form, "{path}");
        assert_eq!(Proof::from_ics23(&form)?, proof, "{path}");
        count += 1;
    }
    assert!(count >= 7, "{count} forms");
    Ok(())
}
