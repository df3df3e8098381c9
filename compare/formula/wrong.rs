//! Texts that the grammar hasn't, each near to one that it has.

use super::near;
use super::tree::{JOINTS, PREFIXES};
use crate::kinds::Kinds;

/// Those near the signs of the first seven kinds.
#[rustfmt::skip]
const FIRST: &[&[u8]] = &[
    b"", b" ", b"\n", b"\0", b"t", b"F", b"U", b"p", b"P0", b"q0", b"0", b"31", b"p32", b"p33", b"p99", b"p100",
    b"p310", b"p00", b"p01", b"p031", b"p000", b"p-1", b"p+1", b"p 1", b"p1 ", b" p1", b"p1.", b"p256", b"p288",
    b"p65536", b"p4294967296", b"p18446744073709551616", b"T ", b" T", b"T\n", b"T\r\n", b"\nT", b"T\0", b"TT", b"Tp0",
    b"p0T", b"p0p1", b"!", b"!!", b"T!", b"! T", b"!\tT", b"~T", b"!!T!", b"EX", b"EX ", b"EXT", b"EX  T", b"ex T",
    b"Ex T", b"eX T", b"EX\tT", b"E X T", b"EX(T&T)", b"EX EX", b"!EX", b"EX ! T", b" EX T", b"EX T ", b"EY T", b"AX T",
    b"()", b"(T)", b"(&)", b"(T&)", b"(&T)", b"(T&T", b"T&T)", b"T&T", b"(T&T))", b"((T&T)", b"(T&T&T)", b"(T & T)",
    b"(T &T)", b"( T&T)", b"(T&T )", b"(T&&T)", b"(T|T)", b"[T&T]", b"((T&T))", b"(T U T)", b"E(T)", b"E(T&T)",
    b"E(T U T", b"E(T U T))", b"E(TUT)", b"E(T  U T)", b"E(T u T)", b"E (T U T)", b"e(T U T)", b"\xc3\xa9", b"E(T UT)",
    b"E(TU T)", b"E(T U  T)", b"E( T U T)", b"E(T U T )", b"E()", b"E( U )", b"E(T U )", b"E( U T)", b"E(T U T U T)",
    b"E(T\nU T)", b"E(T\tU\tT)", b"E(T V T)", b"E(T U T) ", b"EE(T U T)", b"EA(T U T)", b"AE(T U T)", b"A(T)",
    b"A(T&T)", b"a(T U T)", b"A (T U T)", b"A(T U T", b"AT U T)", b"E[T U T]",
];

/// Two of them that the grammar has since it has all kinds.
pub const READ_SINCE: [&[u8]; 2] = [b"AX T", b"(T|T)"];

/// Those near the signs of the kinds behind the first seven.
#[rustfmt::skip]
const SINCE: &[&[u8]] = &[
    b"AX", b"AX ", b"EF", b"EF ", b"AF", b"AF ", b"EG", b"EG ", b"AG", b"AG ", b"X T", b"F T", b"G T", b"FT", b"GT",
    b"AXp0", b"EFp0", b"AFp31", b"EGT", b"AGp0", b"AG p", b"AG p32", b"EF p01", b"AF T ", b" AF T", b"AG T\n", b"AG\nT",
    b"AG\rT", b"AG\0T", b"A\nG T", b"AG_T", b"AG-T", b"AG:T", b"AX(T&T)", b"AX(T|T)", b"EF(T>T)", b"AG(p0>AF p1)",
    b"AG(T)", b"AG (T)", b"EF()", b"EFG T", b"AXX T", b"AAX T", b"EEF T", b"AEF T", b"EAG T", b"AXEF T", b"AX EFT",
    b"AX EF", b"AX EF ", b"AG AG AG", b"AX  EF T", b"AG! T", b"AG ! T", b"! AG T", b"AU T", b"EU T", b"AR T", b"EW T",
    b"EY T", b"AY T", b"AE T", b"EA T", b"AT T", b"AP T", b"BX T", b"AG T U T", b"A(G T U T)", b"A(AG T)",
    b"AG (T U T)", b"EX T|T", b"AX T>T", b"T|T", b"T>T", b"|", b">", b"|T", b">T", b"T|", b"T>", b"(|)", b"(>)",
    b"(T|)", b"(T>)", b"(|T)", b"(>T)", b"(T|T", b"(T>T", b"(p0>p1", b"T|T)", b"T>T)", b"(T|T))", b"((T>T)", b"((T|T))",
    b"(T|T|T)", b"(T>T>T)", b"(p0|p1|p2)", b"(T|T&T)", b"(T&T>T)", b"(T>T|T)", b"(T | T)", b"(T > T)", b"(T |T)",
    b"(T> T)", b"( T|T)", b"(T>T )", b"[T|T]", b"{T>T}", b"(p0->p1)", b"(p0=>p1)", b"(p0<->p1)", b"(T>-T)", b"(T>U T)",
    b"(T|>T)", b"(T>&T)", b"E(T|T)", b"E(T>T)", b"A(T|T)", b"A(T>T)", b"E(T | T)", b"(T U> T)", b"E(T > U T)",
    b"A(T U T|T)", b"E(T|T U T)", b"A|T U T)", b"E>(T U T)", b"(AG T)", b"(AG T|)", b"(AGT|T)", b"(T|AG)", b"(T>AX )",
    b"AG (p0>AFp1)", b"AG (p0>AF p1", b"AG p0>AF p1)", b"AG (p0->AF p1)", b"ag (p0>af p1)", b"AG (P0>AF P1)",
];

/// Everything near to a sign of the kinds behind the first seven, in the place of that sign.
fn near_signs() -> Vec<Vec<u8>> {
    let (first, all) = (Kinds::First.greatest(), Kinds::All.greatest());
    let since = |kind: u16| first < kind && kind <= all;
    let before = |sign: String| [sign.as_bytes(), b"p0"].concat();
    let between = |sign: String| [b"(p0", sign.as_bytes(), b"T)"].concat();
    let prefixes = PREFIXES.iter().filter(|row| since(row.0)).flat_map(|row| near::prefix(row.1)).map(before);
    let middles = JOINTS.iter().filter(|row| since(row.0)).flat_map(|row| near::middle(row.2)).map(between);
    prefixes.chain(middles).collect()
}

/// All that were wrong with the first seven kinds, or all that came with the others.
pub fn before() -> Vec<Vec<u8>> {
    FIRST.iter().map(|text| text.to_vec()).collect()
}

pub fn since() -> Vec<Vec<u8>> {
    SINCE.iter().map(|text| text.to_vec()).chain(near_signs()).collect()
}

/// All that are outside the grammar of these kinds.
pub fn texts(kinds: Kinds) -> Vec<Vec<u8>> {
    let still = || before().into_iter().filter(|text| !READ_SINCE.contains(&&text[..]));
    kinds.choose(before(), still().chain(since()).collect())
}
