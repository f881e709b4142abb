//! The small program's work, from the bytes it reads to the bytes it writes.

use crate::manifest::Manifest;
use crate::plan;
use crate::text::text;
use crate::{Answer, Lent, Refusal, Wanted};

/// What the program writes for these files and targets.
pub fn output(lent: &Lent) -> Vec<u8> {
    lines(lent).unwrap_or_else(|refusal| refused(&Answer::Refused(refusal)))
}

fn lines(lent: &Lent) -> Result<Vec<u8>, Refusal> {
    let (mut manifest, headers) = plan::read(lent)?;
    match plan::plan(&mut manifest, &headers, lent)? {
        Answer::List(list) if list.is_empty() => Ok(b"no work\n".to_vec()),
        Answer::List(list) => commands(&manifest, &list),
        answer => Ok(refused(&answer)),
    }
}

/// The line for a refusal, and after a 14 that of its circle.
pub fn refused(answer: &Answer) -> Vec<u8> {
    let refusal = answer.refusal().map(|refusal| format!("{refusal}\n"));
    let circle = matches!(answer, Answer::Circle(_)).then(|| format!("{answer}\n"));
    refusal.into_iter().chain(circle).collect::<String>().into_bytes()
}

/// A line for each listed step. Texts are all checked, in list order, before any is written.
fn commands(manifest: &Manifest, list: &[u32]) -> Result<Vec<u8>, Refusal> {
    let mut lines = Vec::new();
    for (place, &step) in (1..).zip(list) {
        let command = text(manifest, step as usize, Wanted::Command)?;
        lines.extend_from_slice(format!("[{place}/{}] ", list.len()).as_bytes());
        lines.extend_from_slice(&command);
        lines.push(b'\n');
    }
    Ok(lines)
}
