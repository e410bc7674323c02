"""What the small programs of benchmarks share that begin with a design: the words after the program's name are the number of passes, 0 or 16, and the
four files; they are read and linked by public calls."""

CRATES = "gs_design gs_lib gs_libtree gs_link gs_sdc gs_spef gs_verilog"

ASKED = """
use anyhow::Result;
use gs_design::Design;
use gs_lib::read_library;
use gs_libtree::read_tree;
use gs_link::link;
use gs_sdc::read_sdc;
use gs_spef::read_spef;
use gs_verilog::read_netlist;
use std::alloc::Global;
use std::env;
use std::fs;
use std::vec::Vec;

const LONGEST: usize = 200_000_000;

// The design of its four texts.
fn design_of(alloc: Global, texts: &[Vec<u8>; 4]) -> Option<Design> {
    if texts[0].len() > LONGEST || texts[1].len() > LONGEST || texts[2].len() > LONGEST || texts[3].len() > LONGEST {
        return None;
    }
    let root = read_tree(alloc, texts[0].as_slice()).ok()?;
    let library = read_library(alloc, &root).ok()?;
    let netlist = read_netlist(alloc, texts[1].as_slice()).ok()?;
    let wires = read_spef(alloc, texts[2].as_slice()).ok()?;
    let limits = read_sdc(alloc, texts[3].as_slice(), library.units).ok()?;
    link(alloc, netlist, library, &wires, &limits).ok()
}

// How many passes the words ask for, and the design.
fn asked(rt: &HostRuntime) -> Result<Option<(u32, Design)>> {
    let mut words = env::args(rt)?.skip(1);
    let (Some(passes), Some(library), Some(netlist), Some(wires), Some(limits)) = (words.next(), words.next(), words.next(), words.next(), words.next()) else {
        return Ok(None);
    };
    let texts = [
        fs::read(rt, library.as_str())?,
        fs::read(rt, netlist.as_str())?,
        fs::read(rt, wires.as_str())?,
        fs::read(rt, limits.as_str())?,
    ];
    let passes = if passes.as_str() == "0" { 0 } else { 16 };
    match design_of(rt.alloc(), &texts) {
        Some(design) => Ok(Some((passes, design))),
        None => Ok(None),
    }
}
"""
