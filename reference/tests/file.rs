//! The event file both ways, and the read of a whole file.

use wheat_delivery::reading::book::Book;
use wheat_delivery::reading::file::event::{Event, decode, encode};
use wheat_delivery::reading::file::whole::{Reading, read};
use wheat_delivery::reading::file::{
    EVENTS, Reader, events_in, length, write, write_event, write_sizes,
};
use wheat_delivery::reading::listing::{Lists, listing};
use wheat_delivery::reading::refusal::Refusal;
use wheat_delivery::trial::hand::{condition, notice, section, session, trade, worked};

fn hand_file() -> Vec<u8> {
    worked().file()
}

fn file_of(events: &[Event]) -> Vec<u8> {
    write(25, 2_500, 100, events).unwrap()
}

/// The number and the place a whole read answers, 0 where it accepts.
fn number_and_place(file: &[u8]) -> (u8, usize) {
    let mut lists = Lists::full();
    let reading = read(file, lists.lend());
    (
        reading.answer.map_or_else(Refusal::number, |_| 0),
        reading.place,
    )
}

fn one_of_each_kind() -> [Event; 6] {
    [
        section(63, true, "Z9Y8X7W", 0x0403_0201),
        trade(1, 2, 0x0807_0605, 0x0C0B_0A09),
        session(0x0807_0605),
        condition(127, true),
        notice(3, 31, 0x0C0B_0A09),
        Event::Expiry,
    ]
}

#[test]
fn each_kind_has_its_bytes() {
    let bytes = one_of_each_kind().map(|event| encode(&event));
    assert_eq!(
        bytes[0],
        (1, *b"\x3f\x01Z9Y8X7W\x00\x01\x02\x03\x04\x00\x00")
    );
    assert_eq!(
        bytes[1],
        (2, [1, 2, 0, 0, 5, 6, 7, 8, 9, 10, 11, 12, 0, 0, 0, 0])
    );
    assert_eq!(
        bytes[2],
        (3, [0, 0, 0, 0, 5, 6, 7, 8, 0, 0, 0, 0, 0, 0, 0, 0])
    );
    assert_eq!(
        bytes[3],
        (4, [127, 1, 0, 0, 0, 0, 0, 0, 0, 0, 0, 0, 0, 0, 0, 0])
    );
    assert_eq!(
        bytes[4],
        (5, [3, 31, 0, 0, 0, 0, 0, 0, 9, 10, 11, 12, 0, 0, 0, 0])
    );
    assert_eq!(bytes[5], (6, [0; 16]));
}

#[test]
fn each_event_written_to_a_file_with_its_sizes_reads_back() {
    let events = one_of_each_kind();
    let file = file_of(&events);
    let mut reader = Reader::new(&file);
    for event in events {
        assert_eq!(reader.read().event, Ok(event));
    }
    assert_eq!(reader.read().event, Err(Refusal::PlaceBeyond));
}

#[test]
fn the_file_has_its_sizes_then_kinds_then_operands() {
    let file = hand_file();
    assert_eq!(
        file[..16],
        [15, 0, 0, 0, 25, 0, 0, 0, 0xC4, 9, 0, 0, 100, 0, 0, 0]
    );
    assert_eq!(file[16..31], [1, 1, 1, 1, 2, 2, 2, 3, 4, 4, 4, 5, 5, 5, 6]);
    assert_eq!(
        file[31..47],
        *b"\x01\x00A000001\x00\x01\x00\x00\x00\x00\x00"
    );
    assert_eq!(file.len(), 271);
}

#[test]
fn every_unlisted_byte_every_mark_above_1_and_every_unknown_kind_is_26() {
    for event in one_of_each_kind() {
        let (kind, operand) = encode(&event);
        let (unlisted, mark): (&[usize], Option<usize>) = match kind {
            1 => (&[9, 14, 15], Some(1)),
            2 => (&[2, 3, 12, 13, 14, 15], None),
            3 => (&[0, 1, 2, 3, 8, 9, 10, 11, 12, 13, 14, 15], None),
            4 => (&[2, 3, 4, 5, 6, 7, 8, 9, 10, 11, 12, 13, 14, 15], Some(1)),
            5 => (&[2, 3, 4, 5, 6, 7, 12, 13, 14, 15], None),
            _ => (
                &[0, 1, 2, 3, 4, 5, 6, 7, 8, 9, 10, 11, 12, 13, 14, 15],
                None,
            ),
        };
        for place in 0..16 {
            for byte in [1, 2, 128, 255] {
                let mut changed = operand;
                changed[place] = byte;
                let malformed = unlisted.contains(&place) || mark == Some(place) && byte > 1;
                assert_eq!(
                    decode(kind, &changed).is_err(),
                    malformed,
                    "{event:?} {place} {byte}"
                );
            }
        }
    }
    for kind in (0..=255).filter(|kind| !(1..=6).contains(kind)) {
        assert_eq!(decode(kind, &[0; 16]), Err(Refusal::Malformed));
    }
}

#[test]
fn the_operand_of_an_event_is_that_part_of_the_file() {
    let file = hand_file();
    let mut reader = Reader::new(&file);
    for i in 0..15 {
        let operand = reader.read().operand;
        assert_eq!(operand.len(), 16);
        assert_eq!(operand.as_ptr(), file[16 + 15 + 16 * i..].as_ptr());
        assert_eq!(reader.next, i + 1);
    }
}

#[test]
fn an_event_read_is_refused_25_then_28_then_26_and_the_number_stays() {
    let mut file = file_of(&[session(1), session(2)]);
    file[17] = 9;
    let refused = |file: &[u8], next: usize| {
        let mut reader = Reader { file, next };
        let read = reader.read();
        assert_eq!(reader.next, next);
        (read.event.unwrap_err().number(), read.operand.len())
    };
    assert_eq!(refused(&file, 1), (26, 16));
    assert_eq!(refused(&file, 2), (28, 0));
    assert_eq!(refused(&file, usize::MAX), (28, 0));
    assert_eq!(refused(&file[..49], 1), (25, 0));
    assert_eq!(refused(&file[..49], 7), (25, 0));
    assert_eq!(refused(&[], 0), (25, 0));
    assert_eq!(Reader::new(&file).read().event, Ok(session(1)));
}

#[test]
fn reading_one_event_does_not_judge_the_opening() {
    let file = write(0, 0, 0, &[session(7)]).unwrap();
    assert_eq!(Reader::new(&file).read().event, Ok(session(7)));
}

#[test]
fn a_file_is_refused_25_by_length_and_by_n() {
    let file = hand_file();
    assert_eq!(events_in(&file), Ok(15));
    for cut in 0..file.len() {
        assert_eq!(number_and_place(&file[..cut]), (25, 0));
    }
    let longer = [file.clone(), vec![0; 17]].concat();
    assert_eq!(number_and_place(&longer), (25, 0));
    let mut many = vec![0; length(EVENTS + 1)];
    many[..4].copy_from_slice(&3_801_u32.to_le_bytes());
    assert_eq!(number_and_place(&many), (25, 0));
    let mut most = vec![0; length(EVENTS)];
    most[..4].copy_from_slice(&3_800_u32.to_le_bytes());
    assert_eq!(number_and_place(&most), (2, 0));
    let mut wrapped = file;
    wrapped[..4].copy_from_slice(&u32::MAX.to_le_bytes());
    assert_eq!(number_and_place(&wrapped), (25, 0));
}

#[test]
fn the_opening_is_judged_after_25_and_before_27() {
    let number = |lot, w, r| number_and_place(&write(lot, w, r, &[]).unwrap());
    assert_eq!(number(0, 0, 1), (2, 0));
    assert_eq!(number(1, 0, 1), (3, 0));
    assert_eq!(number(1, 101, 1), (4, 0));
    assert_eq!(number(1, 1, 1), (27, 0));
    let mut short = write(0, 0, 0, &[session(1)]).unwrap();
    short.pop();
    assert_eq!(number_and_place(&short), (25, 0));
}

#[test]
fn the_opening_is_judged_before_the_first_event() {
    let mut file = write(0, 1, 1, &[session(1)]).unwrap();
    file[16] = 0;
    assert_eq!(number_and_place(&file), (2, 0));
}

#[test]
fn an_events_form_is_judged_before_its_own_number() {
    let mut file = file_of(&[session(1), trade(9, 9, 0, 0)]);
    assert_eq!(number_and_place(&file), (10, 1));
    file[16 + 2 + 16 + 2] = 1;
    assert_eq!(number_and_place(&file), (26, 1));
}

#[test]
fn an_earlier_events_number_comes_before_a_later_26() {
    let mut file = file_of(&[session(0), session(1)]);
    file[17] = 200;
    assert_eq!(number_and_place(&file), (16, 0));
}

#[test]
fn an_event_after_an_accepted_expiry_is_5_at_its_place() {
    let mut events = worked().events;
    events.push(session(1));
    events.push(Event::Expiry);
    assert_eq!(number_and_place(&file_of(&events)), (5, 15));
    let mut file = file_of(&events);
    file[16 + 15] = 0;
    assert_eq!(number_and_place(&file), (26, 15));
}

#[test]
fn a_last_expiry_that_is_refused_gives_its_own_number() {
    assert_eq!(number_and_place(&file_of(&[Event::Expiry])), (22, 0));
    assert_eq!(
        number_and_place(&file_of(&[session(1), session(1), Event::Expiry])),
        (22, 2)
    );
}

#[test]
fn a_file_whose_last_event_is_no_expiry_is_27_at_n() {
    let events = worked().events;
    assert_eq!(number_and_place(&file_of(&events[..14])), (27, 14));
    assert_eq!(number_and_place(&file_of(&[session(1)])), (27, 1));
}

#[test]
fn the_shortest_accepted_file_prints_an_empty_register() {
    let file = file_of(&[session(1), Event::Expiry]);
    assert_eq!(number_and_place(&file), (0, 2));
    assert_eq!(listing(&file), "register 0\n");
}

#[test]
fn a_refused_file_prints_its_number_and_place() {
    assert_eq!(listing(&[]), "refused 25 0\n");
    assert_eq!(listing(&file_of(&worked().events[..14])), "refused 27 14\n");
}

/// Lists of these lengths for a read of the hand file.
fn lists(register: usize, sections: [usize; 3], margin_sums: usize) -> Lists {
    let [delivered, terminated, lapsed] = sections;
    Lists {
        buyers: vec![81; register],
        elevators: vec![82; register],
        sellers: vec![83; register],
        lots: vec![84; register],
        delivered: vec![85; delivered],
        terminated: vec![86; terminated],
        lapsed: vec![88; lapsed],
        margin_sums: vec![87; margin_sums],
    }
}

#[test]
fn a_read_judges_its_lists_at_the_expiry() {
    let answer = |file: &[u8], register: usize, sections: [usize; 3], sums: usize| {
        let mut lent = lists(register, sections, sums);
        let before = lent.clone();
        let reading = read(file, lent.lend());
        let refusal = reading.answer.unwrap_err();
        assert_eq!((&lent, reading.book), (&before, Book::noughts()));
        (refusal.number(), reading.place)
    };
    let file = hand_file();
    assert_eq!(answer(&file, 381, [0, 0, 0], 0), (23, 14));
    assert_eq!(answer(&file, 382, [3, 4, 4], 4), (24, 14));
    assert_eq!(answer(&file, 382, [4, 3, 4], 4), (24, 14));
    assert_eq!(answer(&file, 382, [4, 4, 3], 4), (24, 14));
    assert_eq!(answer(&file, 382, [4, 4, 4], 3), (24, 14));
    let evening = file_of(&[session(1), session(1), Event::Expiry]);
    assert_eq!(answer(&evening, 0, [0, 0, 0], 0), (22, 2));
    let ended = file_of(&worked().events[..14]);
    assert_eq!(answer(&ended, 0, [0, 0, 0], 0), (27, 14));
}

#[test]
fn an_accepted_read_hands_out_the_expired_book_the_counts_and_the_lists() {
    let file = hand_file();
    let mut lent = lists(382, [5, 4, 7], 6);
    let Reading {
        answer,
        place,
        book,
    } = read(&file, lent.lend());
    let counts = answer.unwrap();
    assert_eq!((counts.pairs, counts.lines, counts.kept), (3, 3, 3));
    assert_eq!(place, 15);
    assert!(book.expired && book.is_good());
    assert_eq!(lent.buyers[..4], [0, 0, 0, 81]);
    assert_eq!(lent.elevators[..4], [0, 4, 1, 82]);
    assert_eq!(lent.sellers[..4], [1, 2, 2, 83]);
    assert_eq!(lent.lots[..4], [2, 2, 1, 84]);
    assert_eq!(lent.delivered, [5, 2, 3, 0, 85]);
    assert_eq!(lent.terminated, [0, 0, 3, 3]);
    assert_eq!(lent.lapsed, [0, 0, 0, 0, 88, 88, 88]);
    assert_eq!(
        lent.margin_sums,
        [2_500_000, -1_000_000, -2_250_000, 750_000, 87, 87]
    );
}

#[test]
fn a_read_refused_after_its_expiry_writes_nothing() {
    let mut events = worked().events;
    events.push(Event::Expiry);
    let mut lent = lists(382, [4, 4, 4], 4);
    let before = lent.clone();
    let reading = read(&file_of(&events), lent.lend());
    assert_eq!((reading.answer, reading.place), (Err(Refusal::Expired), 15));
    assert_eq!((lent, reading.book), (before, Book::noughts()));
}

#[test]
fn margins_before_a_section_was_opened_count_as_none() {
    let mut events = worked().events;
    events.insert(8, session(1_530_000));
    events.insert(9, section(9, false, "D000001", 0));
    events.insert(10, session(1_520_000));
    let text = listing(&file_of(&events));
    assert_eq!(text, format!("{}D000001 0 0 0 0\n", worked().prints));
}

#[test]
fn the_writer_writes_its_own_bytes_and_no_other() {
    let mut file = vec![0xAA; length(3)];
    write_sizes(&mut file, 1, 2, 3).unwrap();
    assert_eq!(file[..16], [3, 0, 0, 0, 1, 0, 0, 0, 2, 0, 0, 0, 3, 0, 0, 0]);
    assert!(file[16..].iter().all(|&byte| byte == 0xAA));
    for place in 0..3 {
        let mut file = vec![0xAA; length(3)];
        write_event(&mut file, place, &notice(3, 31, 9)).unwrap();
        let own = 16 + 3 + 16 * place;
        let written: Vec<usize> = (0..file.len()).filter(|&i| file[i] != 0xAA).collect();
        let wanted: Vec<usize> = [16 + place].into_iter().chain(own..own + 16).collect();
        assert_eq!(written, wanted);
    }
}

#[test]
fn a_write_is_refused_25_then_28_and_writes_nothing() {
    let answer = |length: usize, place: usize| {
        let mut file = vec![0xAA; length];
        let answer = write_event(&mut file, place, &session(1));
        assert!(answer.is_ok() || file.iter().all(|&byte| byte == 0xAA));
        answer.map_err(Refusal::number)
    };
    assert_eq!(answer(0, 0), Err(25));
    assert_eq!(answer(15, 0), Err(25));
    assert_eq!(answer(32, 99), Err(25));
    assert_eq!(answer(16, 0), Err(28));
    assert_eq!(answer(33, 1), Err(28));
    assert_eq!(answer(33, 0), Ok(()));
    assert_eq!(answer(length(3_800), 3_799), Ok(()));
    assert_eq!(answer(length(3_800), 3_800), Err(28));
    assert_eq!(answer(length(3_801), 0), Err(25));
    let mut file = vec![0xAA; 17];
    assert_eq!(write_sizes(&mut file, 1, 1, 1), Err(Refusal::FileSize));
    assert_eq!(file, [0xAA; 17]);
}

#[test]
fn a_writer_judges_no_values() {
    let mut file = vec![0; length(1)];
    write_sizes(&mut file, u32::MAX, 0, 0).unwrap();
    write_event(&mut file, 0, &trade(255, 255, u32::MAX, 0)).unwrap();
    assert_eq!(
        Reader::new(&file).read().event,
        Ok(trade(255, 255, u32::MAX, 0))
    );
}
