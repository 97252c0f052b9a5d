//! `talc resave`: a safe written again with its own values.

use crate::arguments::Arguments;
use crate::commands::Said;
use crate::lock::Locked;
use crate::opening::Closed;
use crate::target::Target;
use crate::trouble::Trouble;
use crate::{files, passphrase, progress, show};
use talcfeather::{Parts, Refusal};

pub fn run(arguments: &Arguments) -> Result<Said, Trouble> {
    let out = arguments.path(1);
    // A safe that is replaced is nobody else's to write meanwhile: it may be the one that is read.
    let _locked = Target::of(out)?.held.map(|_| Locked::take(out)).transpose()?;
    let closed = Closed::read(arguments.path(0), arguments.ceiling())?;
    let passphrase = passphrase::get(&arguments.source())?;
    let mut workspace = closed.workspace();
    let (opened, _) = closed.open(&passphrase, &mut workspace)?;
    let refused = |refusal| Trouble::refused(out, refusal);
    let parts = Parts::of(&closed.bytes, &opened).ok_or_else(|| refused(Refusal::Length))?;
    let mut again = vec![0; closed.bytes.len()];
    progress::during("stretching the passphrase again", || {
        talcfeather::write(&passphrase.0, &parts, opened.body(), &mut again)
    })
    .map_err(refused)?;
    if again != closed.bytes {
        return Err(Trouble::Differs(format!("{}: would differ; not written", show::path(out))));
    }
    files::write(out, &again)?;
    Ok(format!("{}: {} bytes, the same byte for byte\n", show::path(out), again.len()).into())
}
