//! Bytes as they go into a script: options from raw pieces, images, hexadecimal text; and
//! the replies that come back. What is made here does not keep to the rules, so that bad
//! options can be made as well.

use reference::image::Form;
use reference::option::{read220, Entry, Suboption};
use reference::prefix::Prefix;
use reference::samples;
use reference::table::Table;
pub use reference::words::hex_text as hex;

/// The longest option that Len can tell.
pub const LONGEST_OPTION: usize = 257;

pub fn suboption(number: u8, body: &[u8]) -> Vec<u8> {
    let mut bytes = vec![number, body.len() as u8];
    bytes.extend(body);
    bytes
}

pub fn request(flags: u8, prefix: u8) -> Vec<u8> {
    suboption(1, &[flags, prefix])
}

pub fn entry(at: Prefix, flags: u8, figures: &[u8]) -> Vec<u8> {
    let mut bytes = at.network.to_be_bytes().to_vec();
    bytes.extend([at.length, flags, figures.len() as u8]);
    bytes.extend(figures);
    bytes
}

pub fn information(flags: u8, entries: &[Vec<u8>]) -> Vec<u8> {
    let mut body = vec![flags];
    body.extend(entries.concat());
    suboption(2, &body)
}

/// Option 220. Above 255 the Len is wrong, as it has one byte.
pub fn option(flags: u8, pieces: &[Vec<u8>]) -> Vec<u8> {
    let mut bytes = vec![220, 0, flags];
    bytes.extend(pieces.concat());
    fit_len(&mut bytes);
    bytes
}

/// Makes Len what it must be, as far as one byte can.
pub fn fit_len(bytes: &mut [u8]) {
    if bytes.len() >= 2 {
        bytes[1] = (bytes.len() - 2) as u8;
    }
}

/// Where each suboption of an option begins, by their Lens; the last may be cut.
pub fn suboption_places(option: &[u8]) -> Vec<usize> {
    let mut places = Vec::new();
    let mut place = 3;
    while place + 1 < option.len() {
        places.push(place);
        place += 2 + usize::from(option[place + 1]);
    }
    places
}

/// Where each entry of an information begins, by their stat-lens; what is cut is none.
pub fn entry_places(option: &[u8], information: usize) -> Vec<usize> {
    let end = information + 2 + usize::from(option[information + 1]);
    let mut places = Vec::new();
    let mut place = information + 3;
    while place + 7 <= end.min(option.len()) {
        places.push(place);
        place += 7 + usize::from(option[place + 6]);
    }
    places
}

/// An accepted option of which nothing is lost in reading: "no unknown suboption, no
/// ignored bit set and no figure past the third".
pub fn nothing_ignored(option: &[u8]) -> bool {
    let plain = |place: usize| match option[place] {
        1 => option[place + 2] < 4,
        2 => {
            let entries = entry_places(option, place);
            let plain = |entry: usize| option[entry + 5] < 4 && option[entry + 6] <= 6;
            option[place + 2] < 4 && entries.into_iter().all(plain)
        }
        number => number == 3,
    };
    option[2] == 0 && suboption_places(option).into_iter().all(plain)
}

/// The image of a table in a form, whatever its counts are; no bytes if it is not sound but
/// for them, or has names that the form has no place for.
pub fn image_in(form: Form, table: &Table) -> Vec<u8> {
    samples::image_in(form, &table.clone().counted())
}

/// The image in the second form, which has a place for everything.
pub fn image(table: &Table) -> Vec<u8> {
    image_in(Form::Second, table)
}

/// Where each record of an image begins, by their lengths, and where the last ends.
pub fn record_places(image: &[u8]) -> Vec<usize> {
    let mut places = Vec::new();
    let mut place = 0;
    while place + 4 <= image.len() {
        places.push(place);
        place += 2 + usize::from(u16::from_le_bytes([image[place], image[place + 1]]));
    }
    places.push(place.min(image.len()));
    places
}

/// The bytes of a word of hexadecimal digits, at least two of them.
pub fn from_hex(word: &[u8]) -> Option<Vec<u8>> {
    reference::words::hex(word).filter(|bytes| !bytes.is_empty())
}

/// The option 220 in the reply of an accepted ask, take or list, which its answer ends with;
/// option 118 may follow it.
pub fn reply_of(answer: &str) -> Option<Vec<u8>> {
    let rest = answer.strip_prefix("ok bytes=")?.trim_end();
    let mut reply = from_hex(rest.rsplit(' ').next()?.as_bytes())?;
    reply.truncate(usize::from(*reply.get(1)?) + 2);
    Some(reply)
}

/// The octets of the first name of an option; none if there is none or it is a bad option.
pub fn first_name(option: &[u8]) -> Option<Vec<u8>> {
    let list = read220(option).ok()?.into_iter();
    list.filter_map(|suboption| match suboption {
        Suboption::Name(octets) => Some(octets),
        _ => None,
    })
    .next()
}

/// The entries of all informations of an option; none if it is a bad one.
pub fn entries_of(option: &[u8]) -> Vec<Entry> {
    let mut entries = Vec::new();
    for suboption in read220(option).unwrap_or_default() {
        if let Suboption::Information(information) = suboption {
            entries.extend(information.entries);
        }
    }
    entries
}

#[cfg(test)]
mod tests {
    use super::*;
    use reference::prefix::prefix;

    #[test]
    fn pieces_make_the_papers_options() {
        assert_eq!(hex(&option(0, &[request(0, 24)])), "dc050001020018");
        let offer = information(0, &[entry(prefix(0x0a00_0100, 24), 0, &[])]);
        assert_eq!(hex(&option(0, &[offer])), "dc0b000208000a000100180000");
    }

    #[test]
    fn hexadecimal_there_and_back() {
        assert_eq!(from_hex(b"00fFa5"), Some(vec![0, 255, 0xa5]));
        assert_eq!(from_hex(b"0"), None);
        assert_eq!(from_hex(b"-"), None);
        assert_eq!(hex(&[]), "-");
    }

    #[test]
    fn places_of_suboptions_and_records() {
        let bytes = option(
            0,
            &[request(0, 24), suboption(9, &[1, 2, 3]), request(2, 0)],
        );
        assert_eq!(suboption_places(&bytes), [3, 7, 12]);
        let at = prefix(0x0a00_0100, 24);
        let entries = [entry(at, 0, &[1, 2]), entry(at, 0, &[]), entry(at, 0, &[])];
        let bytes = option(0, &[request(0, 24), information(0, &entries)]);
        assert_eq!(entry_places(&bytes, 7), [10, 19, 26]);
        assert_eq!(entry_places(&bytes[..30], 7), [10, 19]);
        let image = [4, 0, 1, 0, 9, 9, 2, 0, 2, 0];
        assert_eq!(record_places(&image), [0, 6, 10]);
    }

    #[test]
    fn what_is_ignored_is_seen() {
        let at = prefix(0x0a00_0100, 24);
        let of = |flags, entry_flags, figures: &[u8]| {
            vec![information(flags, &[entry(at, entry_flags, figures)])]
        };
        for (flags, pieces, plain) in [
            (0, vec![request(3, 24), suboption(3, &[255])], true),
            (0, of(3, 3, &[0; 6]), true),
            (1, vec![request(0, 24)], false),
            (0, vec![request(4, 24)], false),
            (0, vec![request(0, 24), suboption(4, &[])], false),
            (0, of(4, 0, &[]), false),
            (0, of(0, 128, &[]), false),
            (0, of(0, 0, &[0; 8]), false),
        ] {
            assert_eq!(nothing_ignored(&option(flags, &pieces)), plain);
        }
    }
}
