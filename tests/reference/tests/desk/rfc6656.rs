//! RFC 6656 section 8 as conversations with the desk.

use reference::image::{save, Desk, Form};
use reference::option::read220;
use reference::table::{State, Table};

use crate::common::*;

#[test]
fn example_1() {
    let mut table = open(&pools(&["10.0.1.0/24"]), 3600, 24, 1000).unwrap();
    let offer = hex("DC 0B 00 02 08 00 0A 00 01 00 18 00 00");
    // DHCPDISCOVER, DHCPOFFER.
    assert_eq!(
        ask(&mut table, 7, 1000, &hex("DC 05 00 01 02 00 18")),
        Ok((1, offer.clone()))
    );
    // DHCPREQUEST, DHCPACK.
    assert_eq!(take(&mut table, 7, 1010, &offer), Ok((1, offer.clone())));
    assert_eq!(
        table.leases[0],
        lease(p("10.0.1.0/24"), 7, State::Leased, 4610)
    );
    // DHCPRELEASE.
    let struck = release(&mut table, 7, 2000, &offer).unwrap();
    assert_eq!((struck.bytes, struck.count), (0, 1));
    assert!(table.used_leases().is_empty());
}

#[test]
fn example_2() {
    // A pool that has one /24 free at 10.0.2.0, and a /28 beside it: the desk gives
    // exactly 24 or nothing, so only the offer of 24 is its own.
    let mut table = open(&pools(&["10.0.2.0/24", "10.0.3.0/28"]), 3600, 24, 1000).unwrap();
    let offer = hex("DC 0B 00 02 08 00 0A 00 02 00 18 00 00");
    let discover = hex("DC 09 00 01 02 00 18 01 02 00 18");
    assert_eq!(ask(&mut table, 7, 1000, &discover), Ok((1, offer.clone())));
    // The offer of the figure, read only.
    let figure = hex("DC 12 00 02 0F 00 0A 00 02 00 18 00 00 0A 00 03 00 1C 00 00");
    let both = [p("10.0.2.0/24"), p("10.0.3.0/28")];
    assert_eq!(read220(&figure), Ok(vec![information(false, false, &both)]));
    // DHCPREQUEST of the 24, DHCPACK. The figure's offer as a request gets the same.
    let mut again = table.clone();
    assert_eq!(take(&mut again, 7, 1010, &figure), Ok((1, offer.clone())));
    assert_eq!(take(&mut table, 7, 1010, &offer), Ok((1, offer.clone())));
    assert_eq!(again, table);
    // Deprecation, and the renewal with figures 10, 7 and 2.
    mark(&mut table, 2000, p("10.0.2.0/24"), true).unwrap();
    let renewal = hex("DC 11 00 02 0E 00 0A 00 02 00 18 00 06 00 0A 00 07 00 02");
    let deprecated = hex("DC 0B 00 02 08 00 0A 00 02 00 18 01 00");
    assert_eq!(take(&mut table, 7, 2000, &renewal), Ok((1, deprecated)));
    // The reload, of the client and here of the desk too.
    let mut image = [0; 45_141];
    let bytes = save(&table, Form::Second, Desk::Own, &mut image).unwrap();
    let mut loaded = Table::zero();
    load(&mut loaded, &image[..bytes]).unwrap();
    assert_eq!(loaded, table);
    let listed = hex("DC 0B 00 02 08 02 0A 00 02 00 18 01 00");
    assert_eq!(
        list(&loaded, 7, 2001, &hex("DC 05 00 01 02 02 00")),
        Ok((1, listed))
    );
    // DHCPRELEASE, whose entry lacks the d that the book has.
    assert_eq!(release(&mut loaded, 7, 2002, &offer).unwrap().count, 1);
    assert_eq!(
        list(&loaded, 7, 2002, &hex("DC 05 00 01 02 02 00")),
        Err(no(11, 0))
    );
}

#[test]
fn every_option_of_the_examples_is_read() {
    let path = concat!(env!("CARGO_MANIFEST_DIR"), "/../vectors/rfc6656.options");
    let text = std::fs::read_to_string(path).unwrap();
    let mut read = Vec::new();
    for line in text
        .lines()
        .filter(|line| !line.starts_with('#') && !line.is_empty())
    {
        let bytes = hex(line);
        let list = read220(&bytes).unwrap();
        // None has anything that the writer would leave out.
        assert_eq!(option(&list), bytes, "{line}");
        read.push(bytes);
    }
    let one = |network: &str, c_s: &str, h_d: &str| {
        hex(&format!(
            "DC 0B 00 02 08 {c_s} 0A 00 {network} 00 18 {h_d} 00"
        ))
    };
    let expected = [
        hex("DC 05 00 01 02 00 18"),
        one("01", "00", "00"),
        one("01", "00", "00"),
        one("01", "00", "00"),
        one("01", "00", "00"),
        hex("DC 09 00 01 02 00 18 01 02 00 18"),
        hex("DC 12 00 02 0F 00 0A 00 02 00 18 00 00 0A 00 03 00 1C 00 00"),
        one("02", "00", "00"),
        one("02", "00", "00"),
        hex("DC 11 00 02 0E 00 0A 00 02 00 18 00 06 00 0A 00 07 00 02"),
        one("02", "00", "01"),
        hex("DC 05 00 01 02 02 00"),
        one("02", "02", "01"),
        one("02", "00", "00"),
    ];
    assert_eq!(read, expected);
}
