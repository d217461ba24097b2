//! symbolize FILE ADDRESS ..: the place in the source of each address, as DIRECTORY/NAME:LINE.

use std::io::Write;

#[repr(C)]
#[derive(Clone, Copy, Default)]
struct Place {
    line: u64,
    start: u64,
    directory_size: u64,
    name_size: u64,
    unit: u32,
    found: u32,
}

#[repr(C)]
#[derive(Default)]
struct Refusal {
    place: u64,
    section: u64,
    unit: u32,
    number: u16,
    what: u16,
}

#[link(name = "dwtool")]
extern "C" {
    fn dwtool_places(
        file: *const u8,
        file_size: usize,
        addresses: *const u64,
        addresses_count: usize,
        places: *mut Place,
        places_room: usize,
        count: *mut usize,
        names: *mut u8,
        names_room: usize,
        size: *mut usize,
        refusal: *mut Refusal,
    ) -> u8;
}

/// The places of addresses, and the bytes of their names; or why the file is refused.
fn places(file: &[u8], addresses: &[u64]) -> Result<(Vec<Place>, Vec<u8>), (u8, Refusal)> {
    let mut places = vec![Place::default(); addresses.len()];
    let mut names = vec![0; 1 << 16];
    loop {
        let (mut count, mut size, mut refusal) = (0, 0, Refusal::default());
        // slices are never null, and nothing here is written but by this call
        let status = unsafe {
            dwtool_places(
                file.as_ptr(),
                file.len(),
                addresses.as_ptr(),
                addresses.len(),
                places.as_mut_ptr(),
                places.len(),
                &mut count,
                names.as_mut_ptr(),
                names.len(),
                &mut size,
                &mut refusal,
            )
        };
        if status != 0 {
            return Err((status, refusal));
        }
        if size <= names.len() {
            return Ok((places, names));
        }
        names.resize(size, 0);
    }
}

/// A place as a line of bytes.
fn line_of(place: &Place, names: &[u8]) -> Vec<u8> {
    let behind = place.start as usize + place.directory_size as usize;
    let name = &names[behind..behind + place.name_size as usize];
    let mut line = match place.found {
        2 if place.directory_size == 0 || name.first() == Some(&b'/') => name.to_vec(),
        2 => [&names[place.start as usize..behind], b"/", name].concat(),
        _ => b"??".to_vec(),
    };
    line.extend(format!(":{}\n", place.line).bytes());
    line
}

fn number(word: &str) -> u64 {
    match word.strip_prefix("0x") {
        Some(digits) => u64::from_str_radix(digits, 16).expect("an address"),
        None => word.parse().expect("an address"),
    }
}

fn main() {
    let words: Vec<String> = std::env::args().skip(1).collect();
    if words.len() < 2 {
        eprintln!("symbolize FILE ADDRESS ..");
        std::process::exit(2);
    }
    let file = std::fs::read(&words[0]).expect("a file");
    let addresses: Vec<u64> = words[1..].iter().map(|word| number(word)).collect();
    match places(&file, &addresses) {
        Ok((places, names)) => {
            let lines: Vec<u8> = places.iter().flat_map(|place| line_of(place, &names)).collect();
            std::io::stdout().write_all(&lines).expect("standard output");
        }
        Err((status, refusal)) => {
            eprintln!("dwtool: file: refusal {} section {}", refusal.number, refusal.section);
            std::process::exit(i32::from(status));
        }
    }
}
