//! Input that comes in pieces, cut anywhere.

use programs::{compare_pieces, run_pieces, LARGEST_PIECE};

const INPUT: &[u8] = include_bytes!("../../../crates/relay_session/stdin");
const OUTPUT: &[u8] = include_bytes!("../../../crates/relay_session/stdout");

#[test]
fn cut_at_every_place() {
    for cut in 1..INPUT.len() {
        let (first, rest) = INPUT.split_at(cut);
        assert_eq!(run_pieces([first, rest]), OUTPUT, "cut at {cut}");
    }
}

#[test]
fn a_byte_at_a_time() {
    assert_eq!(run_pieces(INPUT.chunks(1)), OUTPUT);
    let cut = INPUT.strip_suffix(b"\n").unwrap();
    assert_eq!(run_pieces(cut.chunks(1)), OUTPUT);
    // Long lines too: what is held of them is cut again and again.
    let long = b"(put 1 10) ".repeat(500);
    let input = [INPUT, &long, b"\n(get 0)\n", &long].concat();
    compare_pieces(&input.chunks(1).collect::<Vec<_>>());
}

#[test]
fn pieces_of_every_small_size() {
    let long = b"z".repeat(300);
    let input = [
        INPUT,
        b"\n\n",
        &long,
        b"\n(get 3)\n",
        &long[..256],
        b"\n",
        &long[..255],
        b"\n(get 0)",
    ]
    .concat();
    for size in 1..=300 {
        compare_pieces(&input.chunks(size).collect::<Vec<_>>());
    }
}

#[test]
fn pieces_as_large_as_the_buffer() {
    let text = [INPUT, &b"(get 0)\n(put 7 70)\nbad\n".repeat(20_000)].concat();
    for size in [LARGEST_PIECE, LARGEST_PIECE - 1, 65_000, 4_096] {
        compare_pieces(&text.chunks(size).collect::<Vec<_>>());
    }
}
