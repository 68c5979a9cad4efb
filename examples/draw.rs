// Draws a tree of three nodes, checks the drawing, and prints it; then draws the tree wide. See examples/check.

// The library's functions over slices: a slice is passed as a pointer and a length.
mod bt {
    mod raw {
        #[link(name = "bt", kind = "static")]
        extern "C" {
            pub fn bt_draw(table: *const u8, table_len: usize, placements: *mut u16, placements_len: usize) -> u64;
            pub fn bt_draw_wide(table: *const u8, table_len: usize, placements: *mut u16, placements_len: usize) -> u64;
            pub fn bt_check(table: *const u8, table_len: usize, placements: *const u16, placements_len: usize) -> u32;
            pub fn bt_allowed_width(nodes: u64) -> u64;
        }
    }

    pub struct Drawn {
        pub refusal: u16,
        pub nodes: u16,
        pub width: u16,
        pub height: u16,
    }

    fn parts(d: u64) -> Drawn {
        Drawn { refusal: d as u16, nodes: (d >> 16) as u16, width: (d >> 32) as u16, height: (d >> 48) as u16 }
    }

    // Safe for all slices: the functions have no precondition but that the pointers and lengths are those of slices.
    pub fn draw(table: &[u8], placements: &mut [u16]) -> Drawn {
        parts(unsafe { raw::bt_draw(table.as_ptr(), table.len(), placements.as_mut_ptr(), placements.len()) })
    }

    pub fn draw_wide(table: &[u8], placements: &mut [u16]) -> Drawn {
        parts(unsafe { raw::bt_draw_wide(table.as_ptr(), table.len(), placements.as_mut_ptr(), placements.len()) })
    }

    pub fn check(table: &[u8], placements: &[u16]) -> u32 {
        unsafe { raw::bt_check(table.as_ptr(), table.len(), placements.as_ptr(), placements.len()) }
    }

    pub fn allowed_width(nodes: u64) -> u64 {
        unsafe { raw::bt_allowed_width(nodes) }
    }
}

fn print_points(placements: &[u16]) {
    for k in 1..=3 {
        println!("{} at column {}, row {}", k, placements[2 * k], placements[2 * k + 1]);
    }
}

fn main() {
    // The head, then a root with two leaves: next, left, right, tag.
    let records: [[u16; 4]; 4] = [[1, 1, 0, 0], [2, 2, 3, 7], [3, 0, 0, 8], [0, 0, 0, 9]];
    let table: Vec<u8> = records.iter().flatten().flat_map(|word| word.to_le_bytes()).collect();
    let mut placements = [0u16; 8];
    let drawn = bt::draw(&table, &mut placements);
    if drawn.refusal != 0 {
        println!("refused {}", drawn.refusal);
        std::process::exit(1);
    }
    println!(
        "{} nodes, {} wide (at most {}), {} high, check {}",
        drawn.nodes,
        drawn.width,
        bt::allowed_width(drawn.nodes.into()),
        drawn.height,
        bt::check(&table, &placements)
    );
    print_points(&placements);
    let drawn = bt::draw_wide(&table, &mut placements);
    println!("wide: {} wide, {} high (at most {})", drawn.width, drawn.height, bt::allowed_width(drawn.nodes.into()));
    print_points(&placements);
}
