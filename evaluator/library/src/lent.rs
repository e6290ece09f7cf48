//! Lent memory: entries that end where a page begins that can be neither read nor written, or that begin where one
//! ends. The entries on their other side are compared after a call, with the lent ones.

use crate::pages::Pages;
use std::cell::Cell;
use std::fmt::Debug;
use std::mem::size_of;
use std::ptr::null_mut;
use std::slice::from_raw_parts;

/// The entries beside the lent ones that are compared.
const GUARD: usize = 9;

/// An entry of lent memory, with a value that an answer hardly has at place `i`.
pub trait Entry: Copy + PartialEq + Debug {
    fn pattern(i: usize) -> Self;
}

impl Entry for u8 {
    fn pattern(i: usize) -> u8 {
        0x80 | (i * 37 % 127) as u8
    }
}

impl Entry for u16 {
    fn pattern(i: usize) -> u16 {
        0xe800 | (i * 97 % 0x7ff) as u16
    }
}

impl Entry for u32 {
    fn pattern(i: usize) -> u32 {
        0xd69c_0000 | (i * 193 % 0xffff) as u32
    }
}

impl Entry for u64 {
    fn pattern(i: usize) -> u64 {
        0xa5c3_96f0_5a3c_0000 + (i as u64 * 0x1_0001)
    }
}

/// The side on which lent entries end at a page that can't be touched.
#[derive(Clone, Copy, PartialEq)]
enum Fence {
    Behind,
    InFront,
}

thread_local! {
    static FENCE: Cell<Fence> = const { Cell::new(Fence::Behind) };
}

/// Makes `calls` with memory that ends in front at a page that can't be touched; else it does so behind.
pub fn fenced_in_front<R>(calls: impl FnOnce() -> R) -> R {
    FENCE.set(Fence::InFront);
    let result = calls();
    FENCE.set(Fence::Behind);
    result
}

/// Lent memory as it was before a call, and where it is; no pages if it has no entries and is nowhere.
pub struct Lent<T> {
    pages: Option<Pages>,
    stretch: *mut T,
    before: Vec<T>,
    front: usize,
    length: usize,
}

impl<T: Entry> Lent<T> {
    /// `length` entries of the pattern.
    pub fn blank(length: usize) -> Lent<T> {
        let front = front_guard();
        Lent::over((0..length + GUARD).map(T::pattern).collect(), front, length)
    }

    /// The entries `contents`, beside entries of the pattern.
    pub fn holding(contents: &[T]) -> Lent<T> {
        let front = front_guard();
        let mut all: Vec<T> = (0..contents.len() + GUARD).map(T::pattern).collect();
        all[front..front + contents.len()].copy_from_slice(contents);
        Lent::over(all, front, contents.len())
    }

    /// No entries, at the null pointer.
    pub fn nowhere() -> Lent<T> {
        Lent { pages: None, stretch: null_mut(), before: Vec::new(), front: 0, length: 0 }
    }

    /// The entries `all`, of which `length` behind the first `front` are lent.
    fn over(all: Vec<T>, front: usize, length: usize) -> Lent<T> {
        let bytes = all.len() * size_of::<T>();
        let pages = Pages::take(bytes);
        let room = pages.all();
        let at = if front == 0 { 0 } else { room.len() - bytes };
        // SAFETY: the stretch has room for the entries, whose size divides a page, so that both its ends are aligned.
        let stretch = unsafe {
            let stretch = room.cast::<u8>().add(at).cast::<T>();
            stretch.copy_from_nonoverlapping(all.as_ptr(), all.len());
            stretch
        };
        Lent { pages: Some(pages), stretch, before: all, front, length }
    }

    /// The number of lent entries.
    pub fn len(&self) -> usize {
        self.length
    }

    /// The first lent entry, to be read.
    pub fn at(&self) -> *const T {
        self.stretch.wrapping_add(self.front)
    }

    /// The first lent entry, to be written.
    pub fn at_mut(&mut self) -> *mut T {
        self.stretch.wrapping_add(self.front)
    }

    /// The entries as they are, those beside the lent ones too.
    fn now(&self) -> &[T] {
        if self.pages.is_none() {
            return &[];
        }
        // SAFETY: the stretch holds as many entries as were put there, and no call is under way.
        unsafe { from_raw_parts(self.stretch, self.before.len()) }
    }

    /// The lent entries as they are.
    pub fn lent(&self) -> &[T] {
        &self.now()[self.front..self.front + self.length]
    }

    /// The complaint that this memory, called `name`, isn't as before with `written` in front of the lent entries; none
    /// if it is, the entries beside them included.
    pub fn complaint(&self, name: &str, written: &[T]) -> Option<String> {
        if written.len() > self.length {
            return Some(format!("{name}: {} entries lent, {} due", self.length, written.len()));
        }
        let due = |i: usize| match i.checked_sub(self.front) {
            Some(place) if place < written.len() => written[place],
            _ => self.before[i],
        };
        let now = self.now();
        let at = (0..now.len()).find(|i| due(*i) != now[*i])?;
        let place = at as isize - self.front as isize;
        Some(format!("{name}[{place}] of {}: expected {:?}, got {:?}", self.length, due(at), now[at]))
    }
}

impl<T> Drop for Lent<T> {
    fn drop(&mut self) {
        if let Some(pages) = self.pages.take() {
            pages.keep();
        }
    }
}

/// The entries that stand in front of the lent ones.
fn front_guard() -> usize {
    match FENCE.get() {
        Fence::Behind => GUARD,
        Fence::InFront => 0,
    }
}
