//! From a draft to its canonical text, and the texts of events.

use crate::draft::{Decl, Draft, Item, Name, Section, Signal, Way};
use std::io::{self, Write};
use std::slice;

/// Writes the names with `, ` between them.
fn write_list(out: &mut impl Write, names: &[Name]) -> io::Result<()> {
    for (place, name) in names.iter().enumerate() {
        if place > 0 {
            out.write_all(b", ")?;
        }
        out.write_all(name)?;
    }
    Ok(())
}

impl Decl<'_> {
    fn write(&self, out: &mut impl Write) -> io::Result<()> {
        out.write_all(self.name)?;
        if !self.kind.is_empty() {
            out.write_all(b" :")?;
        }
        for name in &self.kind {
            out.write_all(b" ")?;
            out.write_all(name)?;
        }
        Ok(())
    }
}

impl Signal<'_> {
    fn write(&self, out: &mut impl Write) -> io::Result<()> {
        let (way, address): (&[u8], &[u8]) = match self.way {
            Way::Output => (b"out ", b" to "),
            Way::Input => (b"in ", b" from "),
        };
        out.write_all(way)?;
        out.write_all(self.name)?;
        if let Some(number) = &self.number {
            out.write_all(b", ")?;
            out.write_all(number)?;
        }
        if !self.parameters.is_empty() {
            out.write_all(b"(")?;
            write_list(out, &self.parameters)?;
            out.write_all(b")")?;
        }
        out.write_all(address)?;
        out.write_all(self.address)?;
        out.write_all(b";\n")
    }
}

impl Item<'_> {
    fn write(&self, out: &mut impl Write) -> io::Result<()> {
        match self {
            Item::Single(signal) => {
                out.write_all(b"  ")?;
                signal.write(out)
            }
            Item::Coregion(signals) => {
                out.write_all(b"  concurrent;\n")?;
                for signal in signals {
                    out.write_all(b"    ")?;
                    signal.write(out)?;
                }
                out.write_all(b"  endconcurrent;\n")
            }
        }
    }
}

impl Section<'_> {
    fn write(&self, out: &mut impl Write) -> io::Result<()> {
        out.write_all(b"instance ")?;
        self.decl.write(out)?;
        out.write_all(b";\n")?;
        for item in &self.items {
            item.write(out)?;
        }
        out.write_all(b"endinstance;\n")
    }
}

impl Draft<'_> {
    /// Writes the canonical text.
    pub fn write(&self, out: &mut impl Write) -> io::Result<()> {
        out.write_all(b"msc ")?;
        out.write_all(self.name)?;
        out.write_all(b";\n")?;
        for (place, decl) in self.header.iter().enumerate() {
            out.write_all(if place == 0 { b"inst " } else { b", " })?;
            decl.write(out)?;
        }
        if !self.header.is_empty() {
            out.write_all(b";\n")?;
        }
        for section in &self.sections {
            section.write(out)?;
        }
        out.write_all(b"endmsc;\n")
    }
}

/// The outputs and inputs of a draft in the order of the text, each with the name of its instance.
pub fn signals<'a>(draft: &'a Draft) -> Vec<(Name<'a>, &'a Signal<'a>)> {
    let mut signals = Vec::new();
    for section in &draft.sections {
        for item in &section.items {
            let group = match item {
                Item::Single(signal) => slice::from_ref(signal),
                Item::Coregion(signals) => signals,
            };
            signals.extend(group.iter().map(|signal| (section.decl.name, signal)));
        }
    }
    signals
}

/// Writes an event as verdicts and traces have it, without parameters.
pub fn write_event(out: &mut impl Write, signal: &Signal) -> io::Result<()> {
    let (way, link): (&[u8], &[u8]) = match signal.way {
        Way::Output => (b"out ", b" to "),
        Way::Input => (b"in ", b" from "),
    };
    out.write_all(way)?;
    out.write_all(signal.name)?;
    if let Some(number) = &signal.number {
        out.write_all(b", ")?;
        out.write_all(number)?;
    }
    out.write_all(link)?;
    out.write_all(signal.address)
}
