//! Proofs, with no ledger.
use crate::owned::bytes_of;
use crate::{Refused, Root};
use ibcworld_sys as sys;

/// A proof as its bytes: that a key has a value under a root, or that it isn't there (ICS 23). Any bytes may be judged.
#[derive(Clone, Debug, PartialEq, Eq, Hash)]
pub struct Proof {
    bytes: Vec<u8>,
}

impl From<Vec<u8>> for Proof {
    fn from(bytes: Vec<u8>) -> Proof {
        Proof { bytes }
    }
}

impl From<Proof> for Vec<u8> {
    fn from(proof: Proof) -> Vec<u8> {
        proof.bytes
    }
}

impl AsRef<[u8]> for Proof {
    fn as_ref(&self) -> &[u8] {
        &self.bytes
    }
}

impl Proof {
    /// Whether it shows that the key has the value under the root.
    ///
    /// # Errors
    /// `BadProof` where not, `BadMessage` where it is no proof, `NoMemory`.
    pub fn verify_present(&self, root: &Root, key: &[u8], value: &[u8]) -> Result<(), Refused> {
        // SAFETY: the pointers and lengths are those of slices.
        Refused::check(unsafe {
            sys::ibcw_verify_present(
                root.as_ptr(),
                root.len(),
                key.as_ptr(),
                key.len(),
                value.as_ptr(),
                value.len(),
                self.bytes.as_ptr(),
                self.bytes.len(),
            )
        })
    }

    /// Whether it shows that the key isn't there under the root.
    ///
    /// # Errors
    /// `BadProof` where not, `BadMessage` where it is no proof, `NoMemory`.
    pub fn verify_absent(&self, root: &Root, key: &[u8]) -> Result<(), Refused> {
        // SAFETY: as in `verify_present`.
        Refused::check(unsafe {
            sys::ibcw_verify_absent(
                root.as_ptr(),
                root.len(),
                key.as_ptr(),
                key.len(),
                self.bytes.as_ptr(),
                self.bytes.len(),
            )
        })
    }

    /// What it says that it shows, which is true where it is verified.
    ///
    /// # Errors
    /// `BadMessage` where it is no proof, `NoMemory`.
    pub fn claim(&self) -> Result<Claim, Refused> {
        let (bytes, length) = (self.bytes.as_ptr(), self.bytes.len());
        // SAFETY: the pointer and the length are those of a slice.
        let key = bytes_of(|at, room, size| unsafe {
            sys::ibcw_proof_key(bytes, length, at, room, size)
        })?;
        // SAFETY: as above.
        let value = bytes_of(|at, room, size| unsafe {
            sys::ibcw_proof_value(bytes, length, at, room, size)
        });
        match value {
            Ok(value) => Ok(Claim {
                key,
                value: Some(value),
            }),
            Err(Refused::NothingThere) => Ok(Claim { key, value: None }),
            Err(refused) => Err(refused),
        }
    }

    /// What it shows under the root.
    ///
    /// # Errors
    /// `BadProof` where it doesn't show what it says, `BadMessage` where it is no proof, `NoMemory`.
    pub fn verify(&self, root: &Root) -> Result<Claim, Refused> {
        let claim = self.claim()?;
        match &claim.value {
            Some(value) => self.verify_present(root, &claim.key, value)?,
            None => self.verify_absent(root, &claim.key)?,
        }
        Ok(claim)
    }
}

/// What a proof says of a key.
#[derive(Clone, Debug, PartialEq, Eq, Hash)]
pub struct Claim {
    /// The key, as its path (ICS 24).
    pub key: Vec<u8>,
    /// Its value, or none where it isn't there.
    pub value: Option<Vec<u8>>,
}
