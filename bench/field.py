#!/usr/bin/env python3
"""Times calls of the libraries: a field product, axpy, dot, square_mod and frobenius_table.

  bench/field.py [--keep]

The calls are timed by a program of its own, which is laid out beside copies of the crates in a
temporary folder, proved and built there (some minutes the first time), and run. It prints a line a
call: the best of several rounds, in nanoseconds a product or an item, and in milliseconds a call.
"""
import sys

sys.dont_write_bytecode = True
from timed import is_kept, lines_of

USES = ["base_types", "field_core", "poly_ops", "poly_rules"]

PROGRAM = r'''//! Times calls of the libraries.
#![tactic(auto)]

ghost use Rattle.std.specs.Prelude.{◌≤◌, IsTrue};
ghost use Rattle.poly_rules.specs.Polynomials.{IsMonic, degree};

use field_core::{Field, Gf32};
use poly_ops::{Poly, frobenius_table, square_mod};
use std::alloc::{AllocError, Global};
use std::io;
use std::rt::Clock;
use std::time::Instant;

/// `len` elements that differ and aren't zero.
fn elements(alloc: Global, len: u32) -> Result<Vec<Gf32>, AllocError> {
    let mut items = Vec::new(alloc);
    let mut bits: u32 = 0x1234_5679;
    for _ in 0..len {
        bits ^= bits << 13;
        bits ^= bits >> 17;
        bits ^= bits << 5;
        items.push(Gf32::new(bits))?;
    }
    Ok(items)
}

/// A chain of products with the factors, each of which waits for the one before.
fn chain(mut product: Gf32, factors: &[Gf32], count: u32) -> Gf32 {
    for _ in 0..count {
        for factor in factors {
            product = product.mul(*factor);
        }
    }
    product
}

/// Whether the highest coefficient is 1 and not the only one.
fn is_monic<F: Field>(f: &Poly<F>) -> bool
    ensures monic { IsTrue result → IsMonic F.ops (degree f.now) f.now }
    ensures degree { IsTrue result → 1 ≤ degree f.now }
{
    let coeffs = f.coeffs();
    coeffs.len() > 1 && coeffs[coeffs.len() - 1] == F::ONE
}

fn nanoseconds(rt: &impl Clock, start: Instant) -> io::Result<u128> {
    Ok(start.elapsed(rt)?.as_nanos())
}

fn main(rt: HostRuntime) -> io::Result<()> {
    let alloc = rt.alloc();
    let x = elements(alloc, 1024)?;
    let mut acc = elements(alloc, 1024)?;
    let mut seen = Gf32::new(3);
    for _ in 0..7 {
        let start = Instant::now(&rt)?;
        seen = chain(seen, x.as_slice(), 1000);
        let time = nanoseconds(&rt, start)?;
        println!(rt; "product {time} {}", seen.get())?;
        let start = Instant::now(&rt)?;
        for _ in 0..1000 {
            if acc.len() == x.len() {
                Gf32::axpy(acc.as_mut_slice(), seen, x.as_slice());
            }
        }
        let time = nanoseconds(&rt, start)?;
        println!(rt; "axpy {time}")?;
        let start = Instant::now(&rt)?;
        for _ in 0..1000 {
            if acc.len() == x.len() {
                seen = seen.add(Gf32::dot(acc.as_slice(), x.as_slice()));
            }
            if let Some(first) = acc.first_mut() {
                *first = seen;
            }
        }
        let time = nanoseconds(&rt, start)?;
        println!(rt; "dot {time}")?;
    }
    let mut top = elements(alloc, 1024)?;
    top.push(Gf32::new(1))?;
    let f = Poly::from_coeffs(top);
    let a = Poly::from_coeffs(elements(alloc, 1024)?);
    if is_monic(&f) {
        for _ in 0..7 {
            let start = Instant::now(&rt)?;
            let rest = square_mod(alloc, &a, &f).is_ok();
            let time = nanoseconds(&rt, start)?;
            println!(rt; "square_mod {time} {rest}")?;
        }
        let start = Instant::now(&rt)?;
        let table = frobenius_table(alloc, &f).is_ok();
        let time = nanoseconds(&rt, start)?;
        println!(rt; "frobenius_table {time} {table}")?;
    }
    Ok(())
}
'''


def main():
    best = {}
    for line in lines_of(PROGRAM, USES, is_kept(__doc__)):
        name, time = line.split()[:2]
        best[name] = min(int(time), best.get(name, int(time)))
    print(f"product          {best['product'] / 1000 / 1024:8.2f} ns, in a chain")
    print(f"axpy             {best['axpy'] / 1000 / 1024:8.2f} ns an item, at length 1,024")
    print(f"dot              {best['dot'] / 1000 / 1024:8.2f} ns an item, at length 1,024")
    print(f"square_mod       {best['square_mod'] / 1e6:8.2f} ms, at degree 1,024")
    print(f"frobenius_table  {best['frobenius_table'] / 1e6:8.2f} ms, at degree 1,024")


main()
