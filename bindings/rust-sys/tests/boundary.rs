//! Every function of the boundary answers, and leaves what it says it leaves.

use widrekas_sys::{
    self as boundary, Asked, Remark, Stepping, Told, BLOCK, CARD, NOTHING_LEFT, PLACES, RECORD, WRONG_LENGTH,
};

/// No byte of a card: a column that is left as it was.
const KEPT: usize = 1000;

/// Cards, padded with spaces.
fn cards(fronts: &[&str]) -> Vec<u8> {
    fronts.iter().flat_map(|front| format!("{front:80}").into_bytes()).collect()
}

#[test]
fn the_version_is_4() {
    assert_eq!(boundary::version(), 4);
}

#[test]
fn a_card_of_80_bytes_alone_is_read() {
    for (length, room) in [(79, RECORD), (81, RECORD), (CARD, RECORD - 1), (CARD, RECORD + 1), (0, 0)] {
        let (mut record, mut number, mut column) = (vec![7; room], -1, KEPT);
        assert_eq!(boundary::card(&vec![b' '; length], &mut record, &mut number, &mut column), WRONG_LENGTH);
        assert!(number == -1 && column == KEPT && record.iter().all(|&byte| byte == 7));
    }
    let (mut record, mut number, mut column) = ([7; RECORD], -1, KEPT);
    assert_eq!(boundary::card(&cards(&["KIT     = 12"]), &mut record, &mut number, &mut column), 0);
    assert_eq!((record[0], record[1], number, column, &record[8..12]), (1, 1, 12, KEPT, &b"KIT\0"[..]));
}

#[test]
fn a_refused_card_has_a_column() {
    let refused: [(&[u8], u8, usize); 8] = [
        (b"END       \xe9 \xff", 1, 10),
        (b"KIT     =  \x0b", 2, 11),
        (b"CONTINUE'a", 3, 8),
        (b"CONTINUE   a'", 4, 11),
        (b"HIERARCH A=(", 5, 11),
        (b"HIERARCH A", 6, 9),
        (b"HIERARCH   = 1", 7, 11),
        (b"XTENSION=", 8, 10),
    ];
    for (front, answer, byte) in refused {
        let mut card = [b' '; CARD];
        card[..front.len()].copy_from_slice(front);
        let (mut record, mut number, mut column) = ([7; RECORD], -1, KEPT);
        assert_eq!(boundary::card(&card, &mut record, &mut number, &mut column), answer);
        assert_eq!((record, number, column), ([7; RECORD], -1, byte), "refusal {answer}");
    }
}

#[test]
fn a_refused_card_of_a_header_has_a_column() {
    let header = cards(&["SIZE    = 12", "KIT     = 'a&'", "CONTINUE 'b", "END"]);
    let (mut card, mut column) = (7, KEPT);
    assert_eq!((boundary::header(&header, &mut card, &mut column), card, column), (3, 2, 9));
    let [mut first, mut last, mut times] = [[7; PLACES]; 3];
    let (mut count, mut column) = (7, KEPT);
    assert_eq!(boundary::list(&header, &mut first, &mut last, &mut times, &mut count, &mut column), 3);
    assert_eq!(([first, last, times], count, column), ([[7; PLACES]; 3], 2, 9));
    let (mut name, mut length, mut column) = ([b'.'; 4], 7, KEPT);
    assert_eq!(boundary::name(&header, 2, &mut name, &mut length, &mut column), 3);
    assert_eq!((&name, length, column), (b"....", 7, 9));
    let (mut text, mut comment) = ([b'.'; 8], [b'.'; 8]);
    let mut told = Told { column: KEPT, ..Told::default() };
    assert_eq!(boundary::lookup_value(&header, b"SIZE", &mut text, &mut told), 3);
    assert_eq!((told.out, told.number, told.column), ([2, 0, 0, 0, 0], 0, 9));
    let mut told = Told { column: KEPT, ..Told::default() };
    assert_eq!(boundary::entry_value(&header, 1, &mut text, &mut told), 3);
    assert_eq!((told.out, told.number, told.column), ([2, 0, 0, 0, 0], 0, 9));
    let mut said = Remark { commented: 7, length: 7, card: 7, column: KEPT };
    assert_eq!(boundary::lookup_comment(&header, b"SIZE", &mut comment, &mut said), 3);
    assert_eq!((said.commented, said.length, said.card, said.column), (7, 7, 2, 9));
    let mut said = Remark { commented: 7, length: 7, card: 7, column: KEPT };
    assert_eq!(boundary::entry_comment(&header, 1, &mut comment, &mut said), 3);
    assert_eq!((said.commented, said.length, said.card, said.column), (7, 7, 2, 9));
    assert_eq!((&text, &comment), (b"........", b"........"));
}

#[test]
fn a_unit_ends_at_its_bracket() {
    assert_eq!((boundary::unit(b"[mm] ring"), boundary::unit(b"ring"), boundary::unit(b"")), (3, 0, 0));
}

#[test]
fn a_unit_may_stand_behind_one_space() {
    let unit = |comment: &[u8]| {
        let mut start = KEPT;
        (boundary::unit_past_space(comment, &mut start), start)
    };
    assert_eq!((unit(b" [mm] ring"), unit(b"[mm] ring"), unit(b" []")), ((4, 2), (3, 1), (2, 2)));
    for none in [&b"  [mm]"[..], b"\t[mm]", b"\x7f[mm]", b" ", b"", b" mm]", b" [mm"] {
        assert_eq!(unit(none), (0, KEPT), "{none:?}");
    }
}

#[test]
fn a_list_a_lookup_and_an_entry() {
    let header = cards(&["SIZE    = 12", "KIT     = 'FKM-&'", "CONTINUE  '75' /r", "SIZE    = 13", "END"]);
    let [mut first, mut last, mut times] = [[7; PLACES]; 3];
    let (mut count, mut column) = (0, KEPT);
    assert_eq!(boundary::list(&header, &mut first, &mut last, &mut times, &mut count, &mut column), 0);
    assert_eq!((count, &first[..3], &last[..3]), (2, &[0, 1, 720][..], &[3, 1, 720][..]));
    assert_eq!((&times[..3], times.iter().sum::<usize>()), (&[2, 1, 0][..], 3));
    let (mut text, mut told) = ([b'.'; 8], Told { column: KEPT, ..Told::default() });
    assert_eq!(boundary::lookup_value(&header, b"KIT", &mut text, &mut told), 0);
    assert_eq!((&text, told.out), (b"FKM-75..", [0, 6, 0, 6, 0]));
    assert_eq!(boundary::entry_value(&header, 3, &mut text, &mut told), 0);
    assert_eq!((told.out, told.number), ([0, 1, 0, 0, 0], 13));
    assert_eq!((boundary::entry_value(&header, 2, &mut text, &mut told), told.out), (12, [0, 1, 0, 0, 0]));
    assert_eq!((boundary::lookup_value(&header, b"KIT", &mut text[..5], &mut told), told.out), (13, [0, 1, 0, 6, 0]));
    assert_eq!((boundary::lookup_value(&header, b"KIT", &mut text[..6], &mut told), told.out), (0, [0, 6, 0, 6, 0]));
    assert_eq!(boundary::lookup_value(&header[1..], b"KIT", &mut text, &mut told), 9);
    assert_eq!(boundary::lookup_value(&header[..80], b"KIT", &mut text, &mut told), 10);
    assert_eq!(told.column, KEPT);
    let (mut comment, mut said) = ([b'.'; 4], Remark { column: KEPT, ..Remark::default() });
    assert_eq!(boundary::lookup_comment(&header, b"KIT", &mut comment, &mut said), 0);
    assert_eq!((&comment, said.commented, said.length), (b"r...", 1, 1));
    assert_eq!((boundary::entry_comment(&header, 3, &mut comment, &mut said), said.commented, said.length), (0, 0, 0));
    assert_eq!((boundary::lookup_comment(&header, b"KIT", &mut [], &mut said), said.length), (13, 1));
    assert_eq!((boundary::entry_comment(&header, 2, &mut comment, &mut said), said.length), (12, 0));
    assert_eq!((boundary::entry_comment(&header[1..], 2, &mut comment, &mut said), said.card), (9, 0));
    assert_eq!((boundary::lookup_comment(&header[..80], b"KIT", &mut comment, &mut said), said.card), (10, 1));
    assert_eq!((&comment, said.column), (b"r...", KEPT));
    assert_eq!(boundary::list(&header[..80], &mut first, &mut last, &mut times, &mut count, &mut column), 10);
    assert_eq!((count, column), (1, KEPT));
}

#[test]
fn where_the_end_stands_and_the_name_at_a_card() {
    let header = cards(&["SIZE    = 12", "HIERARCH A B = 1", "", "  END", "KIT     = '"]);
    let (mut card, mut column) = (7, KEPT);
    assert_eq!((boundary::header(&header, &mut card, &mut column), card), (0, 3));
    assert_eq!((boundary::header(&header[..160], &mut card, &mut column), card), (10, 2));
    assert_eq!((boundary::header(&header[1..], &mut card, &mut column), card, column), (9, 0, KEPT));
    assert_eq!((boundary::header(&header[320..], &mut card, &mut column), card, column), (3, 0, 10));
    let (mut name, mut length, mut column) = ([b'.'; 4], 7, KEPT);
    assert_eq!(boundary::name(&header, 1, &mut name, &mut length, &mut column), 0);
    assert_eq!((&name, length), (b"A.B.", 3));
    assert_eq!(boundary::name(&header, 1, &mut name[..2], &mut length, &mut column), 13);
    assert_eq!([2, 3, 5].map(|card| boundary::name(&header, card, &mut name, &mut length, &mut column)), [12; 3]);
    assert_eq!(column, KEPT);
    assert_eq!(boundary::name(&header, 4, &mut name, &mut length, &mut column), 3);
    assert_eq!((&name, length, column), (b"A.B.", 3, 10));
}

#[test]
fn cards_are_written_and_read_back() {
    let string = Asked { kind: 6, flag: false, number: 0, text: b"FKM-75" };
    let (mut block, mut count) = ([7; CARD + 1], 9);
    assert_eq!((boundary::write(b"KIT", string, Some(b"ring"), &mut block, &mut count), count), (0, 1));
    assert_eq!((&block[..CARD], block[CARD]), (&cards(&["KIT     = 'FKM-75' /ring"])[..], 7));
    let decimal = Asked { kind: 2, flag: true, number: -1, text: b"15" };
    assert_eq!((boundary::write(b"SIZE", decimal, None, &mut block, &mut count), count), (0, 1));
    assert_eq!((&block[..CARD], block[CARD]), (&cards(&["SIZE    =               -15E-1"])[..], 7));
    // 2,000 quotes with the longest comment fill the largest block.
    let quotes = Asked { kind: 6, flag: false, number: 0, text: &[b'\''; 2000] };
    let mut block = [7; BLOCK + 1];
    assert_eq!((boundary::write(b"KIT", quotes, Some(&[b'c'; 65]), &mut block, &mut count), count), (0, 62));
    assert_eq!(block[BLOCK], 7);
    let header = [&block[..BLOCK], &cards(&["END"])].concat();
    let (mut text, mut comment, mut told, mut said) = ([0; 2000], [0; 65], Told::default(), Remark::default());
    assert_eq!(boundary::lookup_value(&header, b"KIT", &mut text, &mut told), 0);
    assert_eq!(boundary::lookup_comment(&header, b"KIT", &mut comment, &mut said), 0);
    assert_eq!((text, comment), ([b'\''; 2000], [b'c'; 65]));
    assert_eq!((told.out, said.commented, said.length), ([0, 6, 0, 2000, 0], 1, 65));
}

#[test]
fn what_is_not_written_leaves_block_and_count() {
    let truth = Asked { kind: 5, flag: true, number: 0, text: b"" };
    let (mut block, mut count) = ([7; CARD], 9);
    for (name, value, comment, room, answer) in [
        (&b"kit"[..], truth, None, 0, 19),
        (b"END", Asked { kind: 7, ..truth }, None, CARD, 19),
        (b"KIT", Asked { kind: 7, ..truth }, None, 0, 20),
        (b"KIT", Asked { kind: usize::MAX, ..truth }, None, CARD, 20),
        (b"KIT", truth, Some(&b" "[..]), 0, 20),
        (b"KIT", truth, Some(b""), CARD - 1, 21),
    ] {
        assert_eq!(boundary::write(name, value, comment, &mut block[..room], &mut count), answer);
        assert_eq!((block, count), ([7; CARD], 9));
    }
    assert_eq!((boundary::write(b"KIT", truth, None, &mut block, &mut count), count), (0, 1));
}

#[test]
fn a_tile_whole_and_by_steps() {
    let (tile, mut pixels, mut count) = ([0x0a, 0x32], [0; 2], 0);
    assert_eq!(boundary::decode(&tile, 2, 32, 8, &mut pixels, &mut count), 0);
    assert_eq!((pixels, count), ([10, 11], 15));
    let (mut bit, mut done, mut last, mut written, mut pixels) = (0, 0, 0, 0, [0; 2]);
    assert_eq!(boundary::open(&tile, 2, 32, 8, &mut bit, &mut done, &mut last), 0);
    assert_eq!((bit, done, last), (8, 0, 10));
    for answer in [0, NOTHING_LEFT] {
        let at = Stepping { bit: &mut bit, done: &mut done, last: &mut last, written: &mut written };
        assert_eq!(boundary::step(&tile, 2, 32, 8, at, &mut pixels), answer);
        assert_eq!((bit, done, last, pixels), (15, 2, 11, [10, 11]));
    }
}
