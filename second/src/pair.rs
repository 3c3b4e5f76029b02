//! Two sheets read as one: where in which of them a place of the whole lies, and
//! the line around it.

/// A place told of two sheets.
#[derive(Clone, Copy, Debug, PartialEq, Eq)]
pub struct Placed {
    /// 1 or 2.
    pub sheet: u64,
    /// Counted from that sheet's start.
    pub place: u64,
    /// Where the part of that sheet begins and ends that shows the line.
    pub begin: u64,
    pub end: u64,
}

/// What both sheets are together.
pub fn whole(first: &[u8], second: &[u8]) -> Vec<u8> {
    [first, b"\n", second].concat()
}

/// Numbers whose place is 0 for want of one.
pub const NOWHERE: [u32; 5] = [0, 10, 40, 41, 42];

/// Where the place that this number has in the whole is among the two.
pub fn placed(number: u32, place: u64, first: &[u8], second: &[u8]) -> Placed {
    if NOWHERE.contains(&number) {
        return empty(1, 0);
    }
    let place = place as usize;
    if place < first.len() {
        return line(1, place, first);
    }
    // The LF between the two, which no token begins with.
    if place == first.len() {
        return empty(1, place);
    }
    let place = place - first.len() - 1;
    match place < second.len() {
        true => line(2, place, second),
        false => empty(2, second.len()),
    }
}

fn empty(sheet: u64, place: usize) -> Placed {
    let place = place as u64;
    Placed {
        sheet,
        place,
        begin: place,
        end: place,
    }
}

fn line(number: u64, place: usize, sheet: &[u8]) -> Placed {
    let is_feed = |byte: &u8| *byte == b'\n';
    let begin = sheet[..place]
        .iter()
        .rposition(is_feed)
        .map_or(0, |feed| feed + 1);
    let end = sheet[place..]
        .iter()
        .position(is_feed)
        .map_or(sheet.len(), |n| place + n);
    Placed {
        sheet: number,
        place: place as u64,
        begin: begin as u64,
        end: end as u64,
    }
}
