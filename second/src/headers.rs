//! Header lists from the compiler (document 02, [4]): the lent bundle of them, and the inputs that
//! they add to the manifest's steps; refusal 20, and just before it 16 and 17 of a depfile's name.

use crate::bundle::{self, Bundle};
use crate::manifest::Manifest;
use crate::{depfile, text, Refusal};
use std::collections::HashMap;

/// The bundle of no header lists, which is what the program lends.
pub fn none() -> Vec<u8> {
    bundle::write(&[])
}

/// The lent texts by path.
#[derive(Debug)]
pub struct Headers<'a> {
    texts: HashMap<&'a [u8], &'a [u8]>,
}

impl<'a> Headers<'a> {
    /// The texts of a bundle; a malformed one is 20 at place 0.
    pub fn read(bytes: &'a [u8]) -> Result<Self, Refusal> {
        let bundle = Bundle::read(bytes, bundle::HEADERS).ok_or(Refusal::new(20, 0))?;
        Ok(Headers { texts: bundle.records.into_iter().collect() })
    }

    /// Adds what the lists name to the steps, the lowest first. Every non-phony step is checked,
    /// needed or not.
    pub fn add_to(&self, manifest: &mut Manifest<'a>) -> Result<(), Refusal> {
        for step in 0..manifest.graph.steps.len() {
            if !manifest.graph.steps[step].phony {
                self.add_to_step(manifest, step)?;
            }
        }
        Ok(())
    }

    fn add_to_step(&self, manifest: &mut Manifest<'a>, step: usize) -> Result<(), Refusal> {
        let path = text::depfile(manifest, step)?;
        // "empty means none"
        if path.is_empty() {
            return Ok(());
        }
        match self.texts.get(&path[..]) {
            Some(text) => add_list(manifest, step, text).ok_or(Refusal::new(20, step)),
            None => {
                manifest.graph.steps[step].lacks_list = true;
                Ok(())
            }
        }
    }
}

/// Adds what a text lists to a step; none where it is malformed, is another's or passes a limit.
fn add_list<'a>(manifest: &mut Manifest<'a>, step: usize, text: &'a [u8]) -> Option<()> {
    let rule = depfile::read(text)?;
    let first_output = manifest.graph.steps[step].outputs[0];
    if rule.target != manifest.files.name(first_output) {
        return None;
    }
    for name in rule.inputs {
        let file = manifest.mention_listed(name)?;
        manifest.graph.steps[step].listed.push(file);
    }
    Some(())
}
