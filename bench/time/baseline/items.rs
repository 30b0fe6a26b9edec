//! The items of all sites, found by site and name.
use crate::input::{Name, Text};
use crate::output::Out;

/// An item: its name, its initial value and its site.
pub struct Cell {
    pub name: Name,
    pub first: u64,
    pub site: u8,
}

/// The items of a site stand side by side.
#[derive(Clone, Copy)]
pub struct Site {
    pub begin: u32,
    pub end: u32,
    slots: u32,
    bits: u32,
}

#[derive(Default)]
pub struct Items {
    pub cells: Vec<Cell>,
    pub sites: Vec<Site>,
    /// places of cells plus 1, by the hashes of names, for one site behind another
    slots: Vec<u32>,
}

impl Items {
    /// Takes in the site that the line from there on tells, and answers the place behind the line.
    pub fn read_site(&mut self, text: Text<'_>, at: usize) -> Option<usize> {
        let (number, mut at) = text.number(text.word(at, b"site ")?)?;
        let begin = self.cells.len();
        if number != self.sites.len() as u64 || number > 63 {
            return None;
        }
        while text.byte(at) == b' ' {
            let (name, next) = text.name(at + 1)?;
            let (value, next) = text.number(text.word(next, b"=")?)?;
            let rises = self.cells[begin..].last().is_none_or(|c| c.name.order() < name.order());
            if !rises || self.cells.len() - begin == 1024 {
                return None;
            }
            self.cells.push(Cell { name, first: value, site: number as u8 });
            at = next;
        }
        self.place_site(begin);
        text.word(at, b"\n")
    }

    fn place_site(&mut self, begin: usize) {
        let end = self.cells.len();
        let bits = (4 * (end - begin)).max(2).next_power_of_two().trailing_zeros();
        let site = Site { begin: begin as u32, end: end as u32, slots: self.slots.len() as u32, bits };
        self.slots.resize(self.slots.len() + (1 << bits), 0);
        let slots = &mut self.slots[site.slots as usize..];
        for place in begin..end {
            let mut slot = self.cells[place].name.hash(bits);
            while slots[slot % (1 << bits)] != 0 {
                slot += 1;
            }
            slots[slot % (1 << bits)] = place as u32 + 1;
        }
        self.sites.push(site);
    }

    /// The place of the item with this name at this site.
    #[inline(always)]
    pub fn find(&self, site: usize, name: Name) -> Option<u32> {
        let site = self.sites.get(site)?;
        let mut slot = name.hash(site.bits);
        loop {
            let place = self.slots[site.slots as usize + slot % (1 << site.bits)].checked_sub(1)?;
            if self.cells[place as usize].name == name {
                return Some(place);
            }
            slot += 1;
        }
    }

    /// Puts a line for each item of a site: a word, the name and a value.
    fn put_values<const N: usize>(&self, site: usize, word: &[u8; N], of: impl Fn(u32) -> u64, out: &mut Out) {
        let Site { begin, end, .. } = self.sites[site];
        for item in begin..end {
            out.room();
            out.put(word);
            out.name(self.cells[item as usize].name);
            out.put(b"=");
            out.number(of(item));
            out.put(b"\n");
        }
    }

    /// Puts the head of a site's section.
    pub fn put_head(&self, site: usize, out: &mut Out) {
        out.room();
        out.put(b"site ");
        out.number(site as u64);
        out.put(b"\n");
        self.put_values(site, b"item ", |item| self.cells[item as usize].first, out);
    }

    /// Puts the end of a site's section.
    pub fn put_tail(&self, site: usize, of: impl Fn(u32) -> u64, out: &mut Out) {
        self.put_values(site, b"final ", of, out);
        out.room();
        out.put(b"end\n");
    }
}
