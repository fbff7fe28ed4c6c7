//! The shelf of sheets that replace sheets, from the request's sentences. It is slow: every question looks at every
//! pair of sheets.

pub const MOST_SHEETS: usize = 1000;

/// A shelf as it is lent; what stands in the list behind the count is no sheet.
struct Shelf<'a>(&'a [u16]);

impl<'a> Shelf<'a> {
    /// Question 21.
    fn new(list: &'a [u16], count: usize) -> Result<Shelf<'a>, u64> {
        if count > MOST_SHEETS || count > list.len() {
            return Err(21);
        }
        let shelf = Shelf(&list[..count]);
        for sheet in 1..=count {
            let named = shelf.entry(sheet);
            let before = (1..sheet).any(|other| shelf.entry(other) == named);
            if named >= sheet || named != 0 && before {
                return Err(21);
            }
        }
        Ok(shelf)
    }

    fn entry(&self, sheet: usize) -> usize {
        self.0[sheet - 1].into()
    }

    fn replacement(&self, sheet: usize) -> Option<usize> {
        (1..=self.0.len()).find(|&later| self.entry(later) == sheet)
    }
}

/// The new count, or the refusal's number.
pub fn file(list: &mut [u16], count: usize, named: usize) -> Result<usize, u64> {
    let shelf = Shelf::new(list, count)?;
    if count == MOST_SHEETS || count == list.len() {
        return Err(22);
    }
    if named > count || named != 0 && shelf.replacement(named).is_some() {
        return Err(23);
    }
    list[count] = named as u16;
    Ok(count + 1)
}

/// The current sheet, or the refusal's number.
pub fn current(list: &[u16], count: usize, sheet: usize) -> Result<usize, u64> {
    let shelf = Shelf::new(list, count)?;
    if !(1..=count).contains(&sheet) {
        return Err(23);
    }
    let mut last = sheet;
    while let Some(later) = shelf.replacement(last) {
        last = later;
    }
    Ok(last)
}
