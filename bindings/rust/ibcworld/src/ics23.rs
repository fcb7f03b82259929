//! Proofs as `cosmos.ics23.v1.CommitmentProof`, in canonical protobuf: fields in order, none that is at its default (ICS 23). Leaves and inner nodes are
//! those of ICS 23's Tendermint spec, so a Cosmos chain verifies them with its own library.
use crate::owned::bytes_of;
use crate::{Proof, Refused};
use ibcworld_sys as sys;

impl Proof {
    /// The proof as the canonical bytes of a `cosmos.ics23.v1.CommitmentProof`.
    ///
    /// # Errors
    /// `BadMessage` exactly where it is no proof, `NoMemory`.
    pub fn to_ics23(&self) -> Result<Vec<u8>, Refused> {
        let proof = self.as_ref();
        // SAFETY: the pointers and lengths are those of slices.
        bytes_of(|at, room, size| unsafe {
            sys::ibcw_proof_to_ics23(proof.as_ptr(), proof.len(), at, room, size)
        })
    }

    /// The proof of the canonical bytes of a `cosmos.ics23.v1.CommitmentProof` of ICS 23's Tendermint spec.
    ///
    /// ```
    /// use ibcworld::{Genesis, Proof, Refused};
    /// let mut genesis = Genesis::new(64, 64)?;
    /// genesis.add_chain(100)?;
    /// genesis.add_chain(100)?;
    /// let mut ledger = genesis.world()?.take()?.expect("two chains");
    /// ledger.end_block(100)?;
    /// let view = ledger.view()?;
    /// for path in ["nextClientSequence", "connections/connection-7"] {
    ///     let proof = view.proof(path)?;
    ///     let told = proof.to_ics23()?;
    ///     assert_eq!(Proof::from_ics23(&told)?, proof);
    ///     assert_eq!(Proof::from_ics23(&told[..told.len() - 1]), Err(Refused::BadMessage));
    /// }
    /// # Ok::<(), Refused>(())
    /// ```
    ///
    /// # Errors
    /// `BadMessage` exactly where the bytes are none, are not canonical, or come from no such proof: another hash, a batch, more or longer parts than a
    /// proof has; `NoMemory`.
    pub fn from_ics23(bytes: &[u8]) -> Result<Proof, Refused> {
        // SAFETY: the pointers and lengths are those of slices.
        bytes_of(|at, room, size| unsafe {
            sys::ibcw_proof_of_ics23(bytes.as_ptr(), bytes.len(), at, room, size)
        })
        .map(Proof::from)
    }
}
