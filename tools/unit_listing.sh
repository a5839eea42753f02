#!/bin/sh
# What binding makes of the units of some Java files, for people who work on the desk.
#
#   tools/unit_listing.sh [OPTIONS] <FILE           FILE is a Java file, or a bundle
#   tools/unit_listing.sh [OPTIONS] --cases FOLDER  tries each file NAME of the folder; where NAME.stdout is
#                                                   there, that is what is to be printed
#   --lines WORD,WORD      these lines alone, of unit, bind, consults, places and code
#   --findings CODE,CODE   findings in place of the listing: those on locks whose code begins so
#
# Of each unit, in the order of the keys' bytes, it prints `unit KEY`; `bind CODE PLACE SUBJECT` for each bind
# finding; `consults` and the consulted names; and, where all units of the input bind, `places` and the places
# of the code's steps, `code` and the number of locals, and the instructions. Input that is refused gives no
# output.
#
# The program is made here, of a copy of the repository, and run by `rt try`: it is built, and not proved.
set -u
top=$(CDPATH= cd -- "$(dirname -- "$0")/.." && pwd) || exit 2

usage() {
    sed -n '4,8s/^# \{0,1\}//p' "$0" >&2
    exit 2
}

head=
cases=
while [ $# -gt 0 ]; do
    [ $# -ge 2 ] || usage
    case $1 in
    --lines) head="lines $2" ;;
    --findings) head="findings $2" ;;
    --cases) cases=$(CDPATH= cd -- "$2" && pwd) || exit 2 ;;
    *) usage ;;
    esac
    shift 2
done

work=$(mktemp -d) || exit 2
trap 'rm -rf "$work"' EXIT

# The input, with a line in front that says what is asked, where that isn't the whole listing.
put_input() {
    if [ -n "$head" ]; then echo "$head"; fi
    cat
}

copy_cases() {
    mkdir "$work/cases"
    for file in "$cases"/*; do
        name=${file##*/}
        case $name in
        *.stdout) cp -- "$file" "$work/cases/$name" || return 1 ;;
        *) put_input <"$file" >"$work/cases/$name" || return 1 ;;
        esac
    done
}

# The crates of the repository, and one more, which takes the printing from unit_cases.
make_program() {
    cp "$top/HANDLES" "$work/" && mkdir "$work/crates" || return 1
    for crate in "$top"/crates/*; do
        mkdir "$work/crates/${crate##*/}"
        for part in src specs proofs; do
            if [ -d "$crate/$part" ]; then cp -r "$crate/$part" "$work/crates/${crate##*/}/" || return 1; fi
        done
    done
    mkdir -p "$work/crates/unit_listing/src"
    for module in code listing locks print units; do
        cp "$top/crates/unit_cases/src/$module.rt" "$work/crates/unit_listing/src/" || return 1
    done
    uses=$(sed -n 's/^unit_cases: //p' "$top/crates.txt")
    { cat "$top/crates.txt" && echo "unit_listing: $uses bundle project_files"; } >"$work/crates.txt"
    put_main >"$work/crates/unit_listing/src/main.rt"
    put_files >"$work/crates/unit_listing/src/files.rt"
    put_sites >"$work/crates/unit_listing/src/sites.rt"
}

put_main() {
    cat <<'RUST'
//! The listing of the units of some Java files.
#![tactic(auto)]
#![allow(dead_code)]

mod code;
mod files;
mod listing;
mod locks;
mod print;
mod sites;
mod units;

use anyhow::Result;
use files::project_of;
use std::alloc::Global;
use std::io::{self, Read, Write};
use std::str;

fn put_lines(alloc: Global, out: &mut String, lines: &str, input: &[u8]) -> Result<()> {
    let Some(project) = project_of(alloc, input)? else {
        return Ok(());
    };
    let is_bound = project.binds();
    for unit in project.units.as_slice() {
        for line in lines.split(',') {
            match line {
                "unit" => listing::put_key_line(out, unit)?,
                "bind" => listing::put_bind_lines(out, unit)?,
                "consults" => listing::put_consults(out, unit)?,
                "places" if is_bound => listing::put_places(out, unit)?,
                "code" if is_bound => listing::put_unit_code(alloc, out, unit)?,
                _ => {}
            }
        }
    }
    Ok(())
}

fn put_output(alloc: Global, out: &mut String, input: &[u8]) -> Result<()> {
    let end = input.iter().position(|byte| *byte == b'\n').unwrap_or(input.len());
    let first = str::from_utf8(&input[..end]).unwrap_or("");
    let rest = &input[input.len().min(end.saturating_add(1))..];
    if let Some(lines) = first.strip_prefix("lines ") {
        return put_lines(alloc, out, lines, rest);
    }
    if let Some(codes) = first.strip_prefix("findings ") {
        return sites::put_findings(alloc, out, codes, rest);
    }
    put_lines(alloc, out, "unit,bind,consults,places,code", input)
}

fn main(rt: HostRuntime) -> Result<()> {
    let mut input = Vec::new(rt.alloc());
    rt.reader().read_to_end(&mut input)?;
    let mut out = String::new(rt.alloc());
    put_output(rt.alloc(), &mut out, input.as_slice())?;
    io::writer(&rt).write_all(out.as_bytes())?;
    Ok(())
}
RUST
}

put_files() {
    cat <<'RUST'
//! The files of the input.

use crate::units::{Project, add_surfaces, bind_classes};
use anyhow::Result;
use bundle::{FileEntry, read_bundle};
use project_files::{ReadFile, read_project};
use std::alloc::Global;
use views::Surfaces;

fn entries_of<'a>(alloc: Global, input: &'a [u8]) -> Result<Option<Vec<FileEntry<'a>>>> {
    if input.starts_with(b"file ") || input == b"end\n".as_slice() {
        return Ok(read_bundle(alloc, input).ok());
    }
    let mut entries = Vec::new(alloc);
    entries.push(FileEntry { path: b"Input.java", text: input })?;
    Ok(Some(entries))
}

/// The files of a bundle or of one Java file, unless the input is refused.
pub(crate) fn files_of<'a>(alloc: Global, input: &'a [u8]) -> Result<Option<Vec<ReadFile<'a>>>> {
    let Some(entries) = entries_of(alloc, input)? else {
        return Ok(None);
    };
    Ok(read_project(alloc, entries.as_slice()).ok())
}

/// The project of files.
pub(crate) fn bound(alloc: Global, files: &[ReadFile<'_>]) -> Result<Project> {
    let mut surfaces = Surfaces::new(alloc)?;
    let mut units = Vec::new(alloc);
    for file in files {
        add_surfaces(alloc, &mut surfaces, file.tree.types.as_slice())?;
    }
    for file in files {
        bind_classes(alloc, &surfaces, file.tree.types.as_slice(), &mut units)?;
    }
    units.sort_by(|a, b| a.key().cmp(b.key()))?;
    Ok(Project { surfaces, units })
}

pub(crate) fn project_of(alloc: Global, input: &[u8]) -> Result<Option<Project>> {
    let Some(files) = files_of(alloc, input)? else {
        return Ok(None);
    };
    Ok(Some(bound(alloc, files.as_slice())?))
}
RUST
}

put_sites() {
    cat <<'RUST'
//! Findings on locks, with the lines where they are.

use crate::files::{bound, files_of};
use crate::locks::lock_findings;
use crate::print::{put_bytes, put_promise};
use anyhow::{Context, Result};
use class_faces::{member_keys, text_of};
use desk_base::Text;
use java_reader::line_of;
use java_tree::{ClassTree, MemberTree, Token};
use project_files::ReadFile;
use result_records::{Finding, FindingLink, VouchKey, key_text};
use std::alloc::Global;

#[derive(Drop)]
struct Site<'a> {
    key: Text,
    path: &'a [u8],
    text: &'a [u8],
    tokens: &'a [Token],
}

fn tokens_of(member: &MemberTree) -> &[Token] {
    match member {
        MemberTree::Field(field) => field.tokens.as_slice(),
        MemberTree::Method(method) => method.tokens.as_slice(),
        MemberTree::Sig(sig) => sig.tokens.as_slice(),
        MemberTree::Ctor(ctor) => ctor.tokens.as_slice(),
        MemberTree::Main(main) => main.tokens.as_slice(),
    }
}

fn put_class_sites<'a>(alloc: Global, sites: &mut Vec<Site<'a>>, file: &'a ReadFile<'a>, class: &'a ClassTree) -> Result<()> {
    let (path, text) = (file.file.path, file.file.text);
    let key = text_of(alloc, class.name.text.as_slice())?;
    sites.push(Site { key, path, text, tokens: class.tokens.as_slice() })?;
    let keys = member_keys(alloc, class)?;
    for (member, key) in class.members.as_slice().iter().zip(keys.as_slice()) {
        sites.push(Site { key: key.clone()?, path, text, tokens: tokens_of(member) })?;
    }
    Ok(())
}

fn put_link(alloc: Global, out: &mut String, link: &FindingLink) -> Result<()> {
    match link {
        FindingLink::Promise(key) => {
            out.push_str("promise ")?;
            put_promise(alloc, out, key)?;
        }
        FindingLink::Vouched(VouchKey::Source { unit }) => write!(out, "vouch-in {}", unit.as_str())?,
        FindingLink::Vouched(VouchKey::Desk { finding }) => write!(out, "vouch-desk {}", finding.as_str())?,
        FindingLink::Assumed { class, promise } => {
            out.push_str("assume-in ")?;
            put_bytes(out, class.as_slice())?;
            out.push(' ')?;
            put_promise(alloc, out, promise)?;
        }
    }
    Ok(())
}

fn put_finding(alloc: Global, out: &mut String, site: &Site<'_>, finding: &Finding) -> Result<()> {
    let at = site.tokens.get((finding.place as usize).saturating_sub(1)).context("no token")?.span.start;
    write!(out, "finding {} at ", key_text(alloc, &finding.key)?.as_str())?;
    put_bytes(out, site.path)?;
    let (line, text, subject) = (line_of(site.text, at), finding.key.code.text(), finding.subject.as_str());
    write!(out, ":{line} {text}: {subject}\n")?;
    for links in finding.alternatives.as_slice() {
        out.push_str("  or")?;
        for (at, link) in links.as_slice().iter().enumerate() {
            out.push_str(if at == 0 { " " } else { "; " })?;
            put_link(alloc, out, link)?;
        }
        out.push('\n')?;
    }
    Ok(())
}

fn is_asked(codes: &str, code: &str) -> bool {
    for front in codes.split(',') {
        if code.starts_with(front) {
            return true;
        }
    }
    false
}

pub(crate) fn put_findings(alloc: Global, out: &mut String, codes: &str, input: &[u8]) -> Result<()> {
    let Some(files) = files_of(alloc, input)? else {
        return Ok(());
    };
    let project = bound(alloc, files.as_slice())?;
    let mut sites = Vec::new(alloc);
    for file in files.as_slice() {
        for class in file.tree.types.as_slice() {
            put_class_sites(alloc, &mut sites, file, class)?;
        }
    }
    for unit in project.units.as_slice() {
        for site in sites.as_slice() {
            if site.key == *unit.key() {
                let found = lock_findings(alloc, &project.surfaces, unit)?;
                for finding in found.as_slice() {
                    if is_asked(codes, finding.key.code.code()) {
                        put_finding(alloc, out, site, finding)?;
                    }
                }
            }
        }
    }
    Ok(())
}
RUST
}

make_program || exit 2
if [ -n "$cases" ]; then
    copy_cases || exit 2
    # The compiled program alone: the interpreter takes seconds for each case.
    cd -- "$work/crates/unit_listing" && rt try --steps 1 --cases "$work/cases"
else
    put_input | (cd -- "$work/crates/unit_listing" && rt try)
fi
