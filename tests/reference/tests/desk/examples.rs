//! The shift log of document 01.

use reference::option::{read118, read220, write118, write220, Request, Suboption};
use reference::prefix::prefix;
use reference::refusal::Refusal;
use reference::table::{State, Table};

use crate::common::*;

fn opened(texts: &[&str]) -> Table {
    open(&pools(texts), 3600, 28, 1000).unwrap()
}

/// The prefix that a single ask gets, or its refusal's number.
fn gets(table: &mut Table, client: u32, length: u8) -> Result<String, u8> {
    match ask(table, client, 1000, &asking(&[length])) {
        Ok((count, reply)) => {
            assert_eq!((count, reply.len()), (1, 13));
            let network = u32::from_be_bytes([reply[6], reply[7], reply[8], reply[9]]);
            Ok(prefix(network, reply[10]).to_string())
        }
        Err(Refusal { number, .. }) => Err(number),
    }
}

#[test]
fn p1_request_for_24() {
    let list = read220(&hex("DC 05 00 01 02 00 18")).unwrap();
    assert_eq!(
        list,
        [Suboption::Request(Request {
            h: false,
            i: false,
            prefix: 24
        })]
    );
}

#[test]
fn p2_offer_of_24() {
    let offer = hex("DC 0B 00 02 08 00 0A 00 01 00 18 00 00");
    let mut buffer = [0; 13];
    assert_eq!(
        write220(
            &[information(false, false, &[p("10.0.1.0/24")])],
            &mut buffer
        ),
        Ok(13)
    );
    assert_eq!(buffer[..], offer[..]);
    let mut table = opened(&["10.0.1.0/24"]);
    assert_eq!(ask(&mut table, 7, 1000, &asking(&[24])), Ok((1, offer)));
}

#[test]
fn p3_prefix_30_and_31() {
    assert!(read220(&hex("DC 05 00 01 02 00 1E")).is_ok());
    // Document 02, M-104: "In P3 and P10, `1F` and 10.0.1.1/24 now get 16."
    assert_eq!(read220(&hex("DC 05 00 01 02 00 1F")), Err(no(16, 3)));
}

#[test]
fn p4_no_suboption_and_a_cut_one() {
    assert_eq!(read220(&hex("DC 01 00")), Err(no(6, 0)));
    assert_eq!(read220(&hex("DC 02 00 01")), Err(no(7, 3)));
}

#[test]
fn p5_smallest_whole_block_first() {
    let mut table = opened(&["10.0.1.0/24"]);
    assert_eq!(gets(&mut table, 1, 26), Ok("10.0.1.0/26".into()));
    assert_eq!(gets(&mut table, 2, 25), Ok("10.0.1.128/25".into()));
    assert_eq!(gets(&mut table, 3, 27), Ok("10.0.1.64/27".into()));
    assert_eq!(gets(&mut table, 4, 26), Err(10));
}

#[test]
fn p6_pools_are_never_joined() {
    let mut table = opened(&["10.0.0.0/25", "10.0.0.128/25"]);
    assert_eq!(gets(&mut table, 1, 24), Err(10));
}

#[test]
fn p7_smallest_over_all_pools() {
    let mut table = opened(&["10.0.0.0/24", "10.0.8.0/26"]);
    assert_eq!(gets(&mut table, 1, 27), Ok("10.0.8.0/27".into()));
    assert_eq!(gets(&mut table, 2, 24), Ok("10.0.0.0/24".into()));
}

#[test]
fn p8_default_length() {
    let mut table = opened(&["10.0.1.0/24"]);
    assert_eq!(gets(&mut table, 1, 0), Ok("10.0.1.0/28".into()));
}

#[test]
fn p9_an_end_does_not_count_at_its_own_second() {
    let mut table = opened(&["10.0.1.0/24"]);
    ask(&mut table, 7, 1000, &asking(&[24])).unwrap();
    let mut late = table.clone();
    let offer = entries(&[p("10.0.1.0/24")]);
    assert_eq!(take(&mut table, 7, 1119, &offer), Ok((1, offer.clone())));
    assert_eq!(table.leases[0].expires, 1119 + 3600);
    assert_eq!(take(&mut late, 7, 1120, &offer), Err(no(11, 0)));
}

#[test]
fn p10_network_bits_past_the_prefix() {
    assert_eq!(
        read220(&hex("DC 0B 00 02 08 00 0A 00 01 01 18 00 00")),
        Err(no(16, 3))
    );
}

#[test]
fn p11_stat_len() {
    assert!(read220(&hex("DC 0F 00 02 0C 00 0A 00 01 00 18 00 04 00 01 00 02")).is_ok());
    assert_eq!(
        read220(&hex("DC 0E 00 02 0B 00 0A 00 01 00 18 00 03 00 01 00")),
        Err(no(7, 3))
    );
}

#[test]
fn p12_option_118() {
    let bytes = hex("76 04 0A 00 01 00");
    assert_eq!(read118(&bytes), Ok(p("10.0.1.0/24").network));
    assert_eq!(read118(&hex("76 03 0A 00 01 00")), Err(no(6, 0)));
    assert_eq!(read118(&hex("76 03 0A 00 01")), Err(no(6, 0)));
    let mut buffer = [0; 6];
    assert_eq!(write118(0x0a00_0100, &mut buffer), Ok(6));
    assert_eq!(buffer[..], bytes[..]);
}

#[test]
fn requests_25_are_served_and_26_are_not() {
    let mut table = opened(&["10.0.0.0/16"]);
    let before = table.clone();
    assert_eq!(ask(&mut table, 7, 1000, &asking(&[30; 26])), Err(no(8, 0)));
    assert_eq!(table, before);
    let (count, reply) = ask(&mut table, 7, 1000, &asking(&[30; 25])).unwrap();
    assert_eq!((count, reply.len(), reply[1]), (25, 253, 251));
    let list = read220(&reply).unwrap();
    for (index, suboption) in list.iter().enumerate() {
        let at = prefix(0x0a00_0000 + 4 * index as u32, 30);
        assert_eq!(*suboption, information(false, false, &[at]));
        assert_eq!(table.leases[index], lease(at, 7, State::Offered, 1120));
    }
    // 26 informations cannot be written: Len would be 261.
    let mut buffer = [0; 1024];
    let wide: Vec<Suboption> = (0..26)
        .map(|_| information(false, false, &[p("10.0.0.0/30")]))
        .collect();
    assert_eq!(write220(&wide, &mut buffer), Err(no(14, 0)));
}

#[test]
fn listed_leases_35_and_36() {
    let i = option(&[request_i()]);
    let (count, reply) = {
        let table = table_with(&["10.0.0.0/16"], 1000, &row_of_leases(35, 5000));
        list(&table, 7, 1000, &i).unwrap()
    };
    assert_eq!((count, reply.len(), reply[1], reply[5]), (35, 251, 249, 2));
    let table = table_with(&["10.0.0.0/16"], 1000, &row_of_leases(36, 5000));
    let (count, reply) = list(&table, 7, 1000, &i).unwrap();
    assert_eq!((count, reply.len(), reply[1], reply[5]), (35, 251, 249, 3));
    // The page echoed with a request gives the rest.
    let mut echo = reply.clone();
    echo[1] += 4;
    echo.extend(hex("01 02 02 00"));
    let (count, reply) = list(&table, 7, 1000, &echo).unwrap();
    assert_eq!(
        (count, reply),
        (1, hex("DC 0B 00 02 08 02 0A 00 00 8C 1E 00 00"))
    );
}

#[test]
fn a_list_goes_on_after_a_return() {
    // "resuming a list by position in the table, which skips a line after a return".
    let mut table = table_with(&["10.0.0.0/16"], 1000, &row_of_leases(40, 5000));
    let (_, page) = list(&table, 7, 1000, &option(&[request_i()])).unwrap();
    let last = prefix(
        u32::from_be_bytes([page[244], page[245], page[246], page[247]]),
        30,
    );
    assert_eq!(last, p("10.0.0.136/30"));
    release(&mut table, 7, 1001, &entries(&[last, p("10.0.0.0/30")])).unwrap();
    let next = option(&[request_i(), information(true, true, &[last])]);
    let (count, reply) = list(&table, 7, 1001, &next).unwrap();
    assert_eq!(count, 5);
    assert_eq!(reply[6..11], hex("0A 00 00 8C 1E")[..]);
}
