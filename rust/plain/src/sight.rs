//! What a session sees, and whom it would overwrite (01, Sessions and sight, and When the desk says
//! no; 02, T-05).

use crate::Refusal;
use crate::chain::{Chain, Version};
use crate::desk::Session;
use crate::slot::Meta;
use crate::status::{committed, reserved};

impl Session<'_> {
    /// "S sees X when X is not 0, is below S's number, is not in S's list and has status 01."
    #[inline]
    fn sees(&self, status: &[u8], number: u64) -> bool {
        number < self.number && committed(status, number) && !self.lists(number)
    }

    /// Whether the number was open when the session began. Used places come first.
    #[inline]
    fn lists(&self, number: u64) -> bool {
        let mut used = self.list.iter().take_while(|&&member| member != 0);
        used.any(|&member| u64::from(member) == number)
    }

    /// Whether `number`, in statement `cmd`, is the session in an earlier statement or is seen.
    #[inline]
    fn knows(&self, status: &[u8], number: u64, cmd: u32) -> bool {
        if number == self.number { cmd < self.statement } else { self.sees(status, number) }
    }

    /// Whether a version is there for the session.
    #[inline]
    fn finds_there(&self, status: &[u8], meta: &Meta) -> bool {
        self.knows(status, meta.create, meta.cmd)
            && !(meta.expire != 0 && self.knows(status, meta.expire, meta.expire_cmd))
    }

    /// Whether "the creator or expirer, other than the acting session, has status 11" (02, T-05).
    /// Hardly ever has the one, so the other is asked without waiting for it.
    #[inline]
    fn doubts(&self, status: &[u8], meta: &Meta) -> bool {
        let doubtful = |number| number != self.number && reserved(status, number);
        doubtful(meta.create) | doubtful(meta.expire)
    }

    /// The first version that is there, and how many were looked at. Refusal 6 where a break comes
    /// first; then 17 where a version looked at is in doubt, "the answer included"; then 7 where no
    /// version is there.
    #[inline]
    pub fn find(&self, status: &[u8], chain: Chain<'_>) -> Result<(u64, Version), Refusal> {
        let mut found = Err(Refusal::NoVersion);
        let mut doubt = false;
        for (version, count) in chain.zip(1..) {
            let version = version?;
            doubt |= self.doubts(status, &version.meta);
            if self.finds_there(status, &version.meta) {
                found = Ok((count, version));
                break;
            }
        }
        if doubt { Err(Refusal::ReservedStatus) } else { found }
    }

    /// Refusals 8 to 10, once a version is there: what the slot says to a writer. The slot was
    /// looked at, so 9 no longer comes of a reserved number.
    pub fn check_conflict(&self, status: &[u8], slot: &Meta) -> Result<(), Refusal> {
        let writer = if slot.expire != 0 { slot.expire } else { slot.create };
        if slot.expire == 0 && self.knows(status, slot.create, slot.cmd) {
            Ok(())
        } else if writer == self.number {
            Err(Refusal::OwnWrite)
        } else if committed(status, writer) {
            Err(Refusal::WriterCommitted)
        } else {
            Err(Refusal::WriterInWork)
        }
    }
}
