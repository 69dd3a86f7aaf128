//! What the wrapper adds to the library: its types, and that each method hands on what it is given.

use flockdrift::*;

const POOLS: ([u32; 2], [u8; 2]) = ([0x0a000800, 0x0a000100], [26, 24]);
const ASK_26_H: &[u8] = &[0xdc, 5, 0, 1, 2, 1, 26];
const NAME_26: &[u8] = &[0xdc, 11, 0, 2, 8, 0, 10, 0, 8, 0, 26, 0, 0];
const TELL_26: &[u8] = &[
    0xdc, 17, 0, 2, 14, 0, 10, 0, 8, 0, 26, 0, 6, 1, 10, 0xff, 0xff, 0, 2,
];
/// An ask for a /26 with h, and the name `west hall`.
const ASK_WEST: &[u8] = b"\xdc\x10\x00\x03\x09west hall\x01\x02\x01\x1a";
const LIST: &[u8] = &[0xdc, 5, 0, 1, 2, 2, 0];

fn opened() -> Book {
    Book::open(&POOLS.0, &POOLS.1, 3600, 28, 1000).unwrap()
}

fn number<T: std::fmt::Debug>(r: Result<T, Refusal>) -> u32 {
    r.unwrap_err().number
}

#[test]
fn no_book_is_refused() {
    let mut book = Book::none();
    assert_eq!(number(book.check()), 5);
    assert_eq!(number(book.head()), 5);
    assert_eq!(number(book.pool(0)), 5);
    assert_eq!(number(book.lease(0)), 5);
    assert_eq!(number(book.save(Form::First)), 5);
    assert_eq!(number(book.save(Form::Second)), 5);
    assert_eq!(number(book.save_for_older(Form::Second)), 5);
    assert_eq!(number(book.whole(26)), 5);
    assert_eq!(number(book.whole(99)), 5);
    assert_eq!(number(book.sheet()), 5);
    assert_eq!(number(book.ask(7, 1000, ASK_26_H, None)), 5);
    assert_eq!(book.pools().count() + book.leases().count(), 0);
    assert_eq!(book.figures(0), None);
    assert_eq!(number(Book::load(&[])), 5);
    assert_eq!(number(Book::open(&POOLS.0, &POOLS.1, 59, 28, 1000)), 12);
}

#[test]
fn a_lease_from_ask_to_release() {
    let mut book = opened();
    book.check().unwrap();
    let reply = book.ask(7, 1000, ASK_26_H, None).unwrap();
    assert_eq!((reply.option().len(), reply.count()), (13, 1));
    let held = Lease {
        network: 0x0a000800,
        length: 26,
        client: 7,
        state: State::Held,
        h: true,
        d: false,
        expires: 1120,
        name: Name::default(),
    };
    assert_eq!(book.lease(0), Ok(held));
    book.take(7, 1010, NAME_26, None).unwrap();
    book.mark(0x0a000800, 26, true, 1020).unwrap();
    let leased = Lease {
        state: State::Leased,
        d: true,
        expires: 4610,
        ..held
    };
    assert_eq!(book.leases().collect::<Vec<_>>(), [leased]);
    assert_eq!(book.list(7, 1030, LIST).unwrap().count(), 1);
    assert_eq!(book.release(7, 1040, NAME_26), Ok(1));
    assert_eq!(book.leases().count(), 0);
    assert_eq!(
        book.sheet().unwrap(),
        "sheet lines=0 free=2\nfree 10.0.1.0/24\nfree 10.0.8.0/26\n"
    );
}

#[test]
fn a_client_that_asks_again_is_offered_the_same() {
    let mut book = opened();
    let first = book.ask(7, 1000, ASK_26_H, None).unwrap();
    book.mark(0x0a000800, 26, true, 1010).unwrap();
    let again = book.ask(7, 1060, ASK_26_H, None).unwrap();
    // The same but for d, which is the entry's flag 1.
    assert_eq!(first.option()[..11], again.option()[..11]);
    assert_eq!((first.option()[11], again.option()[11]), (2, 3));
    let held = book.lease(0).unwrap();
    assert_eq!(
        (held.state, held.d, held.expires),
        (State::Held, true, 1180)
    );
    assert_eq!(book.leases().count(), 1);
    // Taken, it is no offer any more.
    book.take(7, 1070, NAME_26, None).unwrap();
    book.ask(7, 1070, ASK_26_H, None).unwrap();
    assert_eq!(book.leases().count(), 2);
}

#[test]
fn the_head_and_the_pools_ascend() {
    let book = opened();
    let head = Head {
        term: 3600,
        default_length: 28,
        last_time: 1000,
        pools: 2,
        leases: 0,
    };
    assert_eq!(book.head(), Ok(head));
    let pools: Vec<_> = book.pools().map(|p| (p.network, p.length)).collect();
    assert_eq!(pools, [(0x0a000100, 24), (0x0a000800, 26)]);
    assert_eq!(number(book.pool(2)), 11);
    assert_eq!(number(book.pool(usize::MAX)), 11);
    assert_eq!(number(book.lease(0)), 11);
}

#[test]
fn a_refusal_and_going_back_leave_the_book() {
    let mut book = opened();
    let before = book.clone();
    assert_eq!(number(book.ask(0, 1000, ASK_26_H, None)), 2);
    assert_eq!(book, before);
    book.ask(7, 1000, ASK_26_H, None).unwrap();
    assert_ne!(book, before);
    for form in [Form::First, Form::Second] {
        let saved = book.save(form).unwrap();
        assert_eq!(Book::load(&saved), Ok(book.clone()));
        assert_eq!(number(Book::load(&saved[1..])), 5);
    }
    book = before.clone();
    assert_eq!(book, before);
}

#[test]
fn how_much_is_left() {
    let mut book = opened();
    assert_eq!(
        [24, 25, 26].map(|length| book.whole(length)),
        [Ok(1), Ok(0), Ok(1)]
    );
    book.ask(7, 1000, ASK_26_H, None).unwrap();
    assert_eq!([24, 26].map(|length| book.whole(length)), [Ok(1), Ok(0)]);
    for outside in [0, 7, 31, 256 + 24, u32::MAX] {
        assert_eq!(book.whole(outside), Ok(0));
    }
    // It has ended at 1120, and is counted when a call removes it.
    assert_eq!(book.whole(26), Ok(0));
    book.ask(8, 1120, &[0xdc, 5, 0, 1, 2, 0, 27], None).unwrap();
    assert_eq!(
        [24, 26, 27].map(|length| book.whole(length)),
        [Ok(1), Ok(0), Ok(1)]
    );
    let loaded = Book::load(&book.save(Form::Second).unwrap()).unwrap();
    assert_eq!(loaded.whole(27), Ok(1));
}

#[test]
fn figures_are_told_and_not_saved() {
    let mut book = opened();
    book.ask(7, 1000, ASK_26_H, None).unwrap();
    let untold = Figures {
        network: 0x0a000800,
        length: 26,
        high_water: None,
        in_use: None,
        unusable: None,
    };
    assert_eq!(book.figures(0), Some(untold));
    let before = book.clone();
    book.take(7, 1010, TELL_26, None).unwrap();
    let told = Figures {
        high_water: Some(266),
        unusable: Some(2),
        ..untold
    };
    assert_eq!(book.figures(0), Some(told));
    assert_eq!(before.figures(0), Some(untold));
    for index in [1, 1023, 1024, usize::MAX] {
        assert_eq!(book.figures(index), None);
    }
    let loaded = Book::load(&book.save(Form::Second).unwrap()).unwrap();
    assert_eq!(loaded.figures(0), Some(untold));
    assert_ne!(loaded, book);
    book.release(7, 1020, NAME_26).unwrap();
    assert_eq!(book.figures(0), None);
}

#[test]
fn an_older_desk_gets_256_leases() {
    // 41 clients ask for 25 blocks each of a /16; the last of them gets 24.
    let mut ask = vec![0xdc, 101, 0];
    ask.extend([1, 2, 0, 30].repeat(25));
    let mut book = Book::open(&[0x0a000000], &[16], 3600, 28, 1000).unwrap();
    for client in 1..=41 {
        for (form, bytes) in [(Form::First, 19), (Form::Second, 44)] {
            let leases = book.head().unwrap().leases as usize;
            assert_eq!(book.save(form).unwrap().len(), 22 + bytes * leases);
            let older = book.save_for_older(form);
            if leases > OLDER_LEASES {
                assert_eq!(number(older), 20);
            } else {
                assert_eq!(older, book.save(form));
            }
        }
        let granted = book.ask(client, 1000, &ask, None).unwrap();
        assert_eq!(granted.count(), if client < 41 { 25 } else { 24 });
    }
    assert_eq!(book.head().unwrap().leases as usize, LEASES);
    assert_eq!(number(book.ask(50, 1000, &ask, None)), 9);
    assert_eq!(Book::load(&book.save(Form::Second).unwrap()), Ok(book));
}

#[test]
fn names_and_the_two_forms() {
    let mut book = opened();
    book.ask(7, 1000, ASK_WEST, None).unwrap();
    let lease = book.lease(0).unwrap();
    assert_eq!(lease.name.octets(), b"west hall");
    assert_eq!((lease.name.len(), &lease.name[..4]), (9, &b"west"[..]));
    assert_eq!(format!("{:?}", lease.name), "\"west hall\"");
    let row = "used 10.0.8.0/26 station 7 until 1120 name west hall\n";
    assert!(book.sheet().unwrap().contains(row));
    // Given again and taken, it keeps its name.
    book.ask(7, 1010, ASK_26_H, None).unwrap();
    book.take(7, 1020, NAME_26, None).unwrap();
    assert_eq!(book.lease(0).unwrap().name, lease.name);
    // The first form has no place for it.
    assert_eq!(number(book.save(Form::First)), 18);
    let second = book.save(Form::Second).unwrap();
    assert_eq!(second.len(), 13 + 18 + 44);
    assert_eq!(Book::load(&second), Ok(book.clone()));
    // Without it a book goes there and back.
    book.release(7, 1030, NAME_26).unwrap();
    book.ask(8, 1030, ASK_26_H, None).unwrap();
    assert!(book.lease(0).unwrap().name.is_empty());
    let first = book.save(Form::First).unwrap();
    assert_eq!((first.len(), first[2]), (13 + 18 + 19, 1));
    let loaded = Book::load(&first).unwrap();
    assert_eq!(loaded, book);
    assert_eq!(loaded.save(Form::First), Ok(first));
    assert_eq!(loaded.save(Form::Second), book.save(Form::Second));
    // A name of 25 octets, and one of 24.
    let mut long = vec![0xdc, 32, 0, 3, 25];
    long.extend([0xff; 25]);
    long.extend([1, 2, 0, 27]);
    assert_eq!(number(book.ask(9, 1040, &long, None)), 17);
    long.remove(5);
    (long[1], long[4]) = (31, 24);
    book.ask(9, 1040, &long, None).unwrap();
    let longest = book.leases().find(|lease| lease.client == 9).unwrap();
    assert_eq!(longest.name.octets(), [0xff; NAME_CAPACITY]);
    assert!(book
        .sheet()
        .unwrap()
        .contains(&format!(" name {}\n", "?".repeat(24))));
}

#[test]
fn a_pool_named_by_option_118() {
    let mut book = opened();
    let (small, large) = (write_selection(0x0a00083f), write_selection(0x0a000100));
    // The best fit is the small pool; named, it is the large one, and its first part.
    let reply = book.ask(7, 1000, ASK_26_H, Some(&large)).unwrap();
    assert_eq!(reply.option()[6..11], [10, 0, 1, 0, 26]);
    assert_eq!((reply.option().len(), reply.count()), (13, 1));
    assert_eq!(reply.selection(), Some(&large[..]));
    assert_eq!(reply.bytes(), [reply.option(), &large[..]].concat());
    // What is held in another pool is not given again.
    let reply = book.ask(7, 1000, ASK_26_H, Some(&small)).unwrap();
    assert_eq!(reply.option()[6..11], [10, 0, 8, 0, 26]);
    assert_eq!(book.leases().count(), 2);
    assert_eq!(number(book.ask(8, 1000, ASK_26_H, Some(&small))), 10);
    // A take finds what lies in the named pool.
    assert_eq!(number(book.take(7, 1010, NAME_26, Some(&large))), 11);
    let reply = book.take(7, 1010, NAME_26, Some(&small)).unwrap();
    assert_eq!((reply.count(), reply.bytes().len()), (1, 19));
    // One past the ends of both pools, an unused one's address, bad options, and none.
    let before = book.clone();
    for address in [0x0a0000ff, 0x0a000200, 0x0a0007ff, 0x0a000840, 0] {
        let outside = write_selection(address);
        assert_eq!(number(book.ask(8, 1010, ASK_26_H, Some(&outside))), 19);
        assert_eq!(number(book.take(7, 1010, NAME_26, Some(&outside))), 19);
    }
    for bad in [
        &[][..],
        &[118],
        &small[..5],
        &[118, 3, 10, 0, 8],
        &[119, 4, 10, 0, 8, 0],
    ] {
        assert_eq!(number(book.ask(8, 1010, ASK_26_H, Some(bad))), 6);
        assert_eq!(number(book.take(7, 1010, NAME_26, Some(bad))), 6);
    }
    assert_eq!(book, before);
    let reply = book.take(7, 1010, NAME_26, None).unwrap();
    assert_eq!((reply.selection(), reply.bytes()), (None, reply.option()));
    assert_eq!(book.list(7, 1010, LIST).unwrap().selection(), None);
}

#[test]
fn options_without_a_book() {
    assert_eq!(check_option(ASK_26_H), Ok(()));
    assert_eq!(number(check_option(&ASK_26_H[1..])), 6);
    let bad = |number, place| Err(Refusal { number, place });
    assert_eq!(check_option(&[0xdc, 5, 0, 1, 2, 0, 31]), bad(16, 3));
    assert_eq!(check_option(&[0xdc, 5, 0, 1, 3, 0, 31]), bad(7, 3));
    assert_eq!(
        check_option(&[0xdc, 8, 0, 3, 1, 97, 3, 2, 97, 0]),
        bad(16, 6)
    );
    // A bad network in an entry, and then an entry that is cut; the same network alone.
    let network = [0xdc, 12, 0, 2, 9, 0, 10, 0, 8, 1, 26, 0, 0, 10];
    assert_eq!(check_option(&network), bad(7, 3));
    let alone = [0xdc, 11, 0, 2, 8, 0, 10, 0, 8, 1, 26, 0, 0];
    assert_eq!(check_option(&alone), bad(16, 3));
    let refused = opened().take(7, 1000, &alone, None).map(|_| ());
    assert_eq!(refused, bad(16, 3));
    assert_eq!(write_selection(0x0a000100), [118, 4, 10, 0, 1, 0]);
    assert_eq!(read_selection(&write_selection(u32::MAX)), Ok(u32::MAX));
    assert_eq!(number(read_selection(&[118, 3, 10, 0, 1])), 6);
}

#[test]
fn refusals_in_words() {
    let words = |number, place| Refusal { number, place }.to_string();
    assert_eq!(
        words(5, 0),
        "refused 5: not the image of a sound table, or not its counts"
    );
    assert_eq!(
        words(7, 13),
        "refused 7: bad framing in the suboption at 13"
    );
    assert_eq!(
        words(16, 3),
        "refused 16: a field outside the rules in the suboption at 3"
    );
    assert_eq!(words(13, 0), "refused 13: no number of this library");
    assert_eq!(words(17, 0), "refused 17: the name is too long");
    assert_eq!(
        words(18, 0),
        "refused 18: names would be lost in the first form"
    );
    assert_eq!(
        words(19, 0),
        "refused 19: no pool contains the address of option 118"
    );
    assert_eq!(
        words(15, 0),
        "refused 15: the figures sheet does not match the table"
    );
}
