//! Option 220 as bytes, made by hand.

/// An option with these suboptions, one after another.
pub fn option(suboptions: &[u8]) -> Vec<u8> {
    let mut option = vec![220, (1 + suboptions.len()) as u8, 0];
    option.extend(suboptions);
    option
}

pub fn request(flags: u8, length: u8) -> [u8; 4] {
    [1, 2, flags, length]
}

/// An information with entries as network, length and flags, without figures.
pub fn information(flags: u8, entries: &[(u32, u8, u8)]) -> Vec<u8> {
    let mut bytes = vec![2, (1 + 7 * entries.len()) as u8, flags];
    for (network, length, flags) in entries {
        bytes.extend(network.to_be_bytes());
        bytes.extend([*length, *flags, 0]);
    }
    bytes
}

/// An ask for these lengths.
pub fn ask(lengths: &[u8]) -> Vec<u8> {
    let requests: Vec<u8> = lengths.iter().flat_map(|&length| request(0, length)).collect();
    option(&requests)
}

/// An ask for these lengths, with a name before them.
pub fn ask_as(name: &[u8], lengths: &[u8]) -> Vec<u8> {
    let mut pieces = vec![3, name.len() as u8];
    pieces.extend(name);
    pieces.extend(lengths.iter().flat_map(|&length| request(0, length)));
    option(&pieces)
}

/// A take or a return of these prefixes.
pub fn entries(prefixes: &[(u32, u8)]) -> Vec<u8> {
    let entries: Vec<(u32, u8, u8)> = prefixes.iter().map(|&(network, length)| (network, length, 0)).collect();
    option(&information(0, &entries))
}

/// A take of these prefixes with all three figures of each.
pub fn entries_with_figures(entries: &[((u32, u8), [u16; 3])]) -> Vec<u8> {
    let mut bytes = vec![2, (1 + 13 * entries.len()) as u8, 0];
    for ((network, length), figures) in entries {
        bytes.extend(network.to_be_bytes());
        bytes.extend([*length, 0, 6]);
        bytes.extend(figures.iter().flat_map(|figure| figure.to_be_bytes()));
    }
    option(&bytes)
}

/// The option 118 of an address.
pub fn selection(address: u32) -> Vec<u8> {
    let mut option = vec![118, 4];
    option.extend(address.to_be_bytes());
    option
}

/// A list from the start.
pub fn list() -> Vec<u8> {
    option(&request(2, 0))
}
