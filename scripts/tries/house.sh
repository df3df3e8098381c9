# A checkout with stand-ins for the programs, and a kit whose calls are counted.
# shellcheck shell=bash disable=SC2154,SC2034 # names that another of these files sets or reads
# an earlier checkout has no ./ask, or no ./label
stand_ins=(desk witness)
for late in ask label; do [ ! -e "$checkout/$late" ] || stand_ins+=("$late"); done
cp -R "${stand_ins[@]/#/$checkout/}" "$checkout/scripts" "$house"
cp "$checkout/docs/RULES.md" "$house/docs"
for crate in values "${stand_ins[@]}"; do mkdir -p "$house/crates/$crate/src"; done
printf '%s\n' values: "${stand_ins[@]/%/: values}" >"$house/crates.txt"
printf '%s\n' '#![tactic(auto)]' '' 'pub mod limits;' >"$house/crates/values/src/lib.rt"
printf '%s\n' 'pub const MOST_TEXT: usize = 32768;' >"$house/crates/values/src/limits.rt"
source=$house/crates/desk/src/main.rt
cat >"$source" <<'END'
// A stand-in: writes what the text has behind its first #.
#![tactic(auto)]

use std::io;
use std::io::Read;
use values::limits::MOST_TEXT;

fn main(rt: HostRuntime) -> io::Result<()> {
    let mut text = Vec::new(rt.alloc());
    rt.reader()
        .take(MOST_TEXT as u64 + 1)
        .read_to_end(&mut text)?;
    match text.splitn(2, |byte| *byte == b'#').nth(1) {
        Some(behind) => rt.write_all(behind),
        None => Ok(()),
    }
}
END
cat >"$house/crates/witness/src/main.rt" <<'END'
// A stand-in: writes what the text has behind its first #, and in place of a % its own two words.
#![tactic(auto)]

use std::env::Env;
use std::io;
use std::io::Read;
use values::limits::MOST_TEXT;

fn put_word(rt: &(impl Env + Print), i: usize) -> io::Result<()> {
    let mut word = [0u8; 64];
    let n = rt.arg(i, &mut word).unwrap_or(0);
    rt.write_all(b"[")?;
    rt.write_all(&word[..n])?;
    rt.write_all(b"]")
}

fn put(rt: &(impl Env + Print), text: &[u8]) -> io::Result<()> {
    let mut parts = text.splitn(2, |byte| *byte == b'%');
    if let Some(before) = parts.next() {
        rt.write_all(before)?;
    }
    if let Some(behind) = parts.next() {
        put_word(rt, 1)?;
        put_word(rt, 2)?;
        rt.write_all(behind)?;
    }
    Ok(())
}

fn main(rt: HostRuntime) -> io::Result<()> {
    let mut text = Vec::new(rt.alloc());
    rt.reader()
        .take(MOST_TEXT as u64 + 1)
        .read_to_end(&mut text)?;
    match text.splitn(2, |byte| *byte == b'#').nth(1) {
        Some(behind) => put(&rt, behind),
        None => Ok(()),
    }
}
END
[ ! -e "$house/ask" ] || cp "$house/crates/witness/src/main.rt" "$house/crates/ask/src/main.rt"
line_by_line() {
    cat >"$1/src/main.rt" <<'END'
// A stand-in: writes for each line what it has behind its first #, or answer=19 where it has none. There a | is a line feed, and behind a
// second # nothing is written, the line's own feed neither.
#![tactic(auto)]

use std::io;

// where the next byte stands
const FIRST: u8 = 0;

const BEFORE: u8 = 1;

const BEHIND: u8 = 2;

const CUT: u8 = 3;

const NOWHERE: u8 = 4;

fn end_line(rt: &impl Print, place: u8) -> io::Result<()> {
    if place <= BEFORE {
        return rt.write_all(b"answer=19\n");
    }
    if place == BEHIND {
        return rt.write_all(b"\n");
    }
    Ok(())
}

fn pass_byte(rt: &impl Print, input: &mut impl io::Read, place: u8) -> io::Result<u8> {
    let mut byte = [0u8; 1];
    if input.read(&mut byte)? == 0 {
        if place != FIRST {
            end_line(rt, place)?;
        }
        return Ok(NOWHERE);
    }
    let sign = byte[0];
    if sign == b'\n' {
        end_line(rt, place)?;
        return Ok(FIRST);
    }
    if place <= BEFORE {
        return Ok(if sign == b'#' { BEHIND } else { BEFORE });
    }
    if place == CUT || sign == b'#' {
        return Ok(CUT);
    }
    if sign == b'|' {
        rt.write_all(b"\n")?;
    } else {
        rt.write_all(&byte)?;
    }
    Ok(BEHIND)
}

fn main(rt: HostRuntime) -> io::Result<()> {
    let mut input = rt.reader();
    let mut place = FIRST;
    for _ in 0..u64::MAX {
        if place == NOWHERE {
            return Ok(());
        }
        place = pass_byte(&rt, &mut input, place)?;
    }
    Ok(())
}
END
}
[ ! -e "$house/label" ] || line_by_line "$house/crates/label"
rt=$(command -v rt) || { echo "rt isn't there" >&2; exit 2; }
cat >"$room/bin/rt" <<END
#!/bin/sh
echo "\$1" >>"$room/calls"
exec "$rt" "\$@"
END
chmod +x "$room/bin/rt"
export PATH=$room/bin:$PATH
cd "$room/models" || exit 2
answer=$'answer=0\nrow=T\nmodel=T'
printf '#%s\n' "$answer" >good
printf '#path=0\nend\n' >listed
desk=$house/desk witness=$house/witness ask=$house/ask label=$house/label
