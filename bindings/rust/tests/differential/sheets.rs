//! The run over a code sheet.
use crate::inputs::{largest, matrix, received};
use crate::random::Random;
use crate::{cause, causes, plain, told};
use relaymarten::{raw, run, MAX_OUTPUT};
use std::collections::BTreeSet;

type Field = (u8, Vec<u8>);

fn bytes(list: &[u32]) -> Vec<u8> {
    list.iter().flat_map(|w| w.to_le_bytes()).collect()
}

/// The fields of a random matrix and its words.
fn fields(r: &mut Random) -> Vec<Field> {
    let m = matrix(r, 14);
    let words = received(r, &m);
    let mut all = vec![(1, vec![m.n as u8]), (2, vec![m.k as u8]), (3, bytes(&m.rows))];
    if r.one_in(2) {
        all.push((4, vec![[0, 1, 2, 3, 255][r.below(5)]]));
    }
    all.push((5, bytes(&words)));
    all
}

/// One field missing, twice, exchanged with another, of another tag or of another length.
fn misshape(r: &mut Random, all: &mut Vec<Field>) {
    let (i, j) = (r.below(all.len()), r.below(all.len()));
    match r.below(16) {
        0 => drop(all.remove(i)),
        1 => all.insert(i, all[j].clone()),
        2 => all.swap(i, j),
        3 => all[i].0 = r.next() as u8 % 8,
        4 => all[i].1.push(r.next() as u8),
        5 => drop(all[i].1.pop()),
        _ => {}
    }
}

/// Cut, with a bit changed, with bytes after the end, or too long.
fn damage(r: &mut Random, sheet: &mut Vec<u8>) {
    match r.below(16) {
        0 => sheet.truncate(r.below(sheet.len() + 1)),
        1 if !sheet.is_empty() => {
            let i = r.below(sheet.len());
            sheet[i] ^= 1 << r.below(8);
        }
        2 => (0..1 + r.below(5)).for_each(|_| sheet.push(r.next() as u8)),
        3 if r.one_in(4) => sheet.resize(4095 + r.below(5), 0),
        _ => {}
    }
}

fn joined(all: Vec<Field>) -> Vec<u8> {
    let mut sheet = Vec::new();
    for (tag, content) in all {
        sheet.push(tag);
        sheet.extend((content.len() as u16).to_be_bytes());
        sheet.extend(content);
    }
    sheet
}

fn sheet(r: &mut Random) -> Vec<u8> {
    let mut all = fields(r);
    misshape(r, &mut all);
    let mut sheet = joined(all);
    damage(r, &mut sheet);
    sheet
}

/// The length that a run answers, with the list that it was lent.
fn run_raw(sheet: &[u8], out: &mut [u8]) -> usize {
    unsafe { raw::relay_run(sheet.as_ptr(), sheet.len(), out.as_mut_ptr(), out.len()) }
}

/// The bytes and every slot of the list; then, through the wrapper, the lines or the refusal's number and value.
#[test]
fn output() {
    let mut r = Random::of("sheets");
    let mut seen = BTreeSet::new();
    let mut room = [0; MAX_OUTPUT];
    for _ in 0..8000 {
        let s = sheet(&mut r);
        let before: Vec<u8> = (0..MAX_OUTPUT + r.below(3)).map(|i| i as u8 ^ 0xA5).collect();
        let mut out = before.clone();
        let length = run_raw(&s, &mut out);
        assert_eq!(String::from_utf8_lossy(&out[..length]), plain::output(&s), "{s:?}");
        assert_eq!(out[length..], before[length..], "{s:?}");

        room.copy_from_slice(&before[..MAX_OUTPUT]);
        let ours = told(run(&s, &mut room).map(|printed| String::from_utf8_lossy(printed).into_owned()));
        assert_eq!(ours, plain::lines(&s), "{s:?}");
        assert_eq!(room[..], out[..MAX_OUTPUT], "{s:?}");
        seen.insert(cause(&ours));
    }
    assert_eq!(seen, causes(&[0, 1, 2, 5, 6], &[3, 4, 7, 12, 13]));
}

/// The most words, of the most places.
#[test]
fn longest_output() {
    let mut r = Random::of("longest output");
    let m = largest(&mut r);
    let words: Vec<u32> = (0..512).map(|_| r.word(m.n)).collect();
    let s = joined(vec![(1, vec![m.n as u8]), (2, vec![m.k as u8]), (3, bytes(&m.rows)), (5, bytes(&words))]);
    let mut out = [0; MAX_OUTPUT];
    assert_eq!(String::from_utf8_lossy(run(&s, &mut out).unwrap()), plain::output(&s));
}

/// Without room for the longest output nothing is written.
#[test]
fn short_room() {
    let mut r = Random::of("short room");
    for room in [0, 1, 100, MAX_OUTPUT - 1] {
        let s = sheet(&mut r);
        let mut out = vec![0xA5; room];
        assert_eq!(run_raw(&s, &mut out), 0);
        assert_eq!(out, vec![0xA5; room]);
    }
}
