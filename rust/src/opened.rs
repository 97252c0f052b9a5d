//! A file that was read.

use crate::{
    fields, find, header, records, wipe, Counts, Fields, Header, Records, Refusal, Search, Uuid,
};
use core::fmt;

/// A file that was read. The body stands in the lent workspace.
///
/// When it is dropped, its keys and the whole workspace are wiped.
pub struct Opened<'w> {
    /// The key of the body.
    pub k: [u8; 32],
    /// The key of the HMAC.
    pub l: [u8; 32],
    /// Header fields and records.
    pub counts: Counts,
    pub(crate) workspace: &'w mut [u8],
    /// Of the body, with which the workspace starts.
    pub(crate) length: usize,
}

impl Opened<'_> {
    /// The decrypted body; it is well formed.
    pub fn body(&self) -> &[u8] {
        self.workspace.get(..self.length).unwrap_or(&[])
    }

    /// All its fields; see [`fields()`].
    ///
    /// # Refusals
    ///
    /// None: the body is well formed.
    pub fn fields(&self) -> Fields<'_> {
        fields(self.body())
    }

    /// The fields of its header; see [`header()`].
    ///
    /// # Refusals
    ///
    /// None: the body is well formed.
    pub fn header(&self) -> Header<'_> {
        header(self.body())
    }

    /// Its records; see [`records()`].
    ///
    /// # Refusals
    ///
    /// None: the body is well formed.
    pub fn records(&self) -> Records<'_> {
        records(self.body())
    }

    /// The record with that UUID, or none; see [`find()`].
    ///
    /// # Refusals
    ///
    /// None: the body is well formed.
    pub fn find(&self, uuid: Uuid) -> Result<Search<'_>, Refusal> {
        find(self.body(), uuid)
    }
}

impl Drop for Opened<'_> {
    fn drop(&mut self) {
        wipe(&mut self.k);
        wipe(&mut self.l);
        wipe(self.workspace);
    }
}

/// The same keys, counts and body.
impl PartialEq for Opened<'_> {
    fn eq(&self, other: &Opened<'_>) -> bool {
        let keys = (&self.k, &self.l) == (&other.k, &other.l);
        keys && self.counts == other.counts && self.body() == other.body()
    }
}

impl Eq for Opened<'_> {}

/// Shows the counts and no secret.
impl fmt::Debug for Opened<'_> {
    fn fmt(&self, f: &mut fmt::Formatter<'_>) -> fmt::Result {
        f.debug_struct("Opened").field("counts", &self.counts).finish_non_exhaustive()
    }
}
