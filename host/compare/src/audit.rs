//! Repaired pages: our own in any layout are judged yes; what is wrong is a no at its page and slot.

use generate::{
    bad_page, other_reserved, other_row, other_type, repacked, row_and_reserved, row_lost,
    row_twice, touched_pages, two_rows, untouched_byte, Rng, Spoiled,
};
use library::{Finding, PAGE_BYTES, RECORD_NUMBERS};

use crate::check::Subject;
use crate::seen::Seen;
use crate::twin;

/// Mixed into the seed, so that these choices leave those of the other calls as they are.
const OWN: u64 = 0x0A0D_1700_0000_0000;

/// What the pages before are judged with.
struct Judge<'a> {
    magic: u64,
    floor: u64,
    before: &'a [u8],
    log: &'a [u8],
}

pub(crate) fn compare(subject: &mut Subject, seen: &mut Seen) {
    let case = subject.case;
    let rng = &mut Rng::new(case.seed ^ OWN);
    let judge = Judge {
        magic: case.magic,
        floor: case.floor,
        before: &case.pages,
        log: &case.log,
    };
    let mut ours = case.pages.clone();
    let records = case.log.len() / library::SHORTEST_ENTRY_BYTES;
    let mut table = vec![0; records * RECORD_NUMBERS];
    let answer = library::recover(case.magic, case.floor, &mut ours, &case.log, &mut table);
    let own = judge.all(&ours, seen);
    seen.must(own.number == answer.number && own.differs == 0, || {
        format!("our own pages are judged {own:?}, recovered by {answer:?}")
    });
    if answer.number != 0 || !subject.light {
        return;
    }

    let touched = touched_pages(&case.log);
    let after = repacked(rng, &ours, &touched);
    let found = judge.all(&after, seen);
    seen.must(found == Finding::default(), || {
        format!("our own pages in another layout are judged {found:?}")
    });
    seen.event(match touched.is_empty() {
        true => "untouched pages judged",
        false => "pages in another layout judged",
    });

    let spoils = [
        other_row,
        two_rows,
        row_and_reserved,
        row_twice,
        row_lost,
        other_reserved,
        other_type,
        untouched_byte,
    ];
    for spoil in spoils {
        if let Some(spoiled) = spoil(rng, &after, &touched) {
            names(rng, &judge, &spoiled, seen);
        }
    }
    listed(rng, &judge, &after, seen);

    let shorter = after.len().saturating_sub(rng.size(1, 2 * PAGE_BYTES));
    judge.all(&after[..shorter], seen);
    let mut longer = after.clone();
    let more = rng.size(1, PAGE_BYTES);
    longer.extend(rng.bytes(more));
    judge.all(&longer, seen);
    if let Some(bad) = bad_page(rng, &after) {
        refuses(rng, &judge, bad, seen);
    }
}

/// A page after is bad: it is refused, also where a page below it differs.
fn refuses(rng: &mut Rng, judge: &Judge, mut bad: Vec<u8>, seen: &mut Seen) {
    let found = judge.all(&bad, seen);
    let (page, event) = match found.number {
        11 => (found.place, "11 of the pages after"),
        17 => (found.place, "17 of the pages after"),
        18 => (found.place, "18 of the pages after"),
        19 => (found.place / PAGE_BYTES as u64, "19 of the pages after"),
        _ => return seen.differs(format_args!("a bad page after is judged {found:?}")),
    };
    seen.event(event);
    if page > 0 {
        let below = rng.index(page as usize);
        bad[below * PAGE_BYTES + rng.size(36, 63)] ^= 1 << rng.below(8);
        let both = judge.all(&bad, seen);
        seen.must(both == found, || {
            format!("page {below} differs too, and {both:?} is told, not {found:?}")
        });
        seen.event("page that differs below a refused one");
    }
}

impl Judge<'_> {
    fn all(&self, after: &[u8], seen: &mut Seen) -> Finding {
        let Judge {
            magic,
            floor,
            before,
            log,
        } = *self;
        let library = library::judge(magic, floor, before, log, after);
        let oracle = twin::finding(oracle::judge(magic, floor, before, log, after));
        seen.answers("judge", library.number, "", &library, &oracle);
        library
    }

    fn from(&self, after: &[u8], first: u64, seen: &mut Seen) -> Finding {
        let Judge {
            magic,
            floor,
            before,
            log,
        } = *self;
        let library = library::judge_from(magic, floor, before, log, after, first);
        let oracle = twin::finding(oracle::judge_from(magic, floor, before, log, after, first));
        let call = format_args!("from page {first}");
        seen.answers("judge_from", library.number, call, &library, &oracle);
        library
    }
}

/// One page wrong: a no that names it, from any page up to it; yes from the page behind it on, and from far behind the
/// last, also where the offset of the first page would not fit 64 bits.
fn names(rng: &mut Rng, judge: &Judge, spoiled: &Spoiled, seen: &mut Seen) {
    let Spoiled {
        kind,
        pages,
        page,
        slot,
    } = spoiled;
    let named = Finding {
        differs: 1,
        page: *page,
        slot: *slot,
        ..Finding::default()
    };
    let found = judge.all(pages, seen);
    seen.must(found == named, || {
        format!("{kind} is judged {found:?}, not {named:?}")
    });
    seen.event(kind);
    let up_to = judge.from(pages, rng.between(0, *page), seen);
    seen.must(up_to == named, || {
        format!("{kind} is judged {up_to:?} from a page before it")
    });
    let behind = judge.from(pages, page + 1, seen);
    seen.must(behind == Finding::default(), || {
        format!("{kind} is judged {behind:?} from the page behind it")
    });
    let first = *rng.pick(&[1 << 32 | *page, 1 << 50 | *page, u64::MAX]);
    let far = judge.from(pages, first, seen);
    seen.must(far == Finding::default(), || {
        format!("{kind} is judged {far:?} from page {first}")
    });
    seen.event("judged from a page far behind the last");
}

/// Several pages with reserved bytes or flags changed: going on behind each finds them all.
fn listed(rng: &mut Rng, judge: &Judge, after: &[u8], seen: &mut Seen) {
    let count = after.len() / PAGE_BYTES;
    let mut pages = after.to_vec();
    let mut wrong = Vec::new();
    for index in 0..count {
        if rng.one_in(3) {
            pages[index * PAGE_BYTES + rng.size(36, 63)] ^= 1 << rng.below(8);
            wrong.push(index as u64);
        }
    }
    let mut listed = Vec::new();
    let mut first = 0;
    loop {
        let found = judge.from(&pages, first, seen);
        if found.differs == 0 {
            break;
        }
        listed.push(found.page);
        first = found.page + 1;
    }
    seen.must(listed == wrong, || {
        format!("pages {wrong:?} differ, {listed:?} were listed")
    });
    if wrong.len() > 1 {
        seen.event("several pages that differ, listed");
    }
}
