//! A block of trades in one call, worked by hand, and held to the single calls.

mod common;

use common::{book_of, opened};
use wheat_delivery::reading::answers;
use wheat_delivery::reading::block::Trades;
use wheat_delivery::reading::book::Book;
use wheat_delivery::reading::file::Reader;
use wheat_delivery::reading::refusal::Refusal;
use wheat_delivery::trial::calls::file;
use wheat_delivery::trial::demand::block::Block;
use wheat_delivery::trial::hand::{code, trade};

/// Buyer, seller, price and lots of a trade.
type Trade = (u8, u8, u32, u32);

/// Three sections without lots; the value of a price is the price.
fn three() -> Book {
    let mut book = opened();
    for text in ["A000001", "A000002", "A000003"] {
        book.section(1, true, code(text), 7).unwrap();
    }
    book
}

/// The number of a block and its answers, first 99 each.
fn given(book: &mut Book, block: &Block) -> (u8, Vec<u8>) {
    let mut answers = vec![99; block.answers];
    let trades = Trades {
        buyers: &block.buyers,
        sellers: &block.sellers,
        prices: &block.prices,
        lots: &block.lots,
    };
    let answer = book.block(trades, &mut answers);
    (answer.map_or_else(Refusal::number, |()| 0), answers)
}

fn block(trades: &[Trade]) -> Block {
    let events = trades
        .iter()
        .map(|&(b, s, price, lots)| trade(b, s, price, lots));
    Block::of(&events.collect::<Vec<_>>())
}

/// The answers of an accepted block.
fn answered(book: &mut Book, trades: &[Trade]) -> Vec<u8> {
    let (number, answers) = given(book, &block(trades));
    assert_eq!(number, 0);
    answers
}

fn positions_and_bases(book: &Book) -> Vec<(i64, i64)> {
    let sections = book.sections().iter();
    sections.map(|s| (s.position, s.basis)).collect()
}

#[test]
fn an_empty_block_is_accepted_and_leaves_the_book() {
    let mut book = three();
    assert_eq!(given(&mut book, &Block::default()), (0, vec![]));
    assert_eq!(book, three());
}

#[test]
fn a_refused_trade_does_not_stop_the_rest() {
    let mut book = three();
    let trades = [(0, 1, 300, 5), (2, 2, 200, 5), (1, 2, 200, 3)];
    assert_eq!(answered(&mut book, &trades), [0, 11, 0]);
    let sections = [(5, 1_500), (-2, -900), (-3, -600)];
    assert_eq!(positions_and_bases(&book), sections);
    assert_eq!(book.trades_since, 2);
}

#[test]
fn each_trade_has_the_number_of_its_own() {
    let mut book = three();
    let trades = [
        (3, 0, 100, 1),
        (0, 0, 100, 1),
        (0, 1, 150, 1),
        (0, 1, 100, 10_001),
        (0, 1, 100, 10_000),
        (0, 3, 150, 0),
        (1, 1, 0, 0),
        (2, 0, 0, 0),
        (1, 2, 10_000_000, 0),
    ];
    assert_eq!(
        answered(&mut book, &trades),
        [10, 11, 12, 13, 0, 10, 11, 12, 13]
    );
    assert_eq!(book.trades_since, 1);
}

#[test]
fn a_block_all_of_whose_trades_are_refused_is_accepted() {
    let mut book = three();
    let trades = [(0, 0, 100, 1), (9, 0, 100, 1)];
    assert_eq!(answered(&mut book, &trades), [11, 10]);
    assert_eq!(book, three());
}

#[test]
fn the_trades_of_a_block_are_counted_one_by_one() {
    let mut book = three();
    book.trades_since = 1_998;
    let (good, same) = ((0, 1, 100, 1), (1, 1, 100, 1));
    let trades = [good, same, good, good, same, good];
    assert_eq!(answered(&mut book, &trades), [0, 11, 0, 15, 11, 15]);
    assert_eq!((book.trades_since, book.sections[0].position), (2_000, 2));
}

#[test]
fn two_thousand_trades_are_all_that_a_block_brings_before_a_session() {
    let mut book = three();
    let trades = [(0, 1, 100, 1); 2_003];
    let mut wanted = vec![0; 2_000];
    wanted.extend([15; 3]);
    assert_eq!(answered(&mut book, &trades), wanted);
    assert_eq!(positions_and_bases(&book)[0], (2_000, 200_000));
    assert_eq!(answered(&mut book, &trades[..2]), [15; 2]);
    book.session(100, &mut [0; 3]).unwrap();
    assert_eq!(answered(&mut book, &trades[..2]), [0; 2]);
    assert_eq!(book.trades_since, 2);
}

#[test]
fn a_block_on_an_expired_book_is_accepted_and_each_trade_is_5() {
    let mut book = three();
    book.expired = true;
    let before = book.clone();
    let trades = [(0, 1, 100, 1), (9, 9, 0, 0)];
    assert_eq!(answered(&mut book, &trades), [5, 5]);
    assert_eq!(given(&mut book, &Block::default()), (0, vec![]));
    assert_eq!(book, before);
}

#[test]
fn a_trade_may_be_possible_only_since_an_earlier_one_of_its_block() {
    let full = || {
        book_of(
            &[
                (1, "A000001", 1_000_000, true),
                (1, "A000002", -999_999, true),
                (1, "A000003", -1, true),
            ],
            &[],
        )
    };
    let mut book = full();
    assert_eq!(answered(&mut book, &[(0, 2, 100, 3)]), [14]);
    let trades = [(0, 2, 100, 3), (1, 0, 100, 3), (0, 2, 100, 3)];
    assert_eq!(answered(&mut book, &trades), [14, 0, 0]);
    assert_eq!(book.sections[0].position, 1_000_000);
    let mut book = full();
    let trades = [
        (2, 1, 100, 1),
        (2, 1, 100, 1),
        (1, 2, 100, 1),
        (2, 1, 100, 1),
    ];
    assert_eq!(answered(&mut book, &trades), [0, 14, 0, 0]);
    assert_eq!(book.sections[1].position, -1_000_000);
}

/// A block of two trades, with one of its five lists changed.
fn uneven(change: impl Fn(&mut Block)) -> Block {
    let mut block = block(&[(0, 1, 100, 1), (1, 2, 100, 1)]);
    change(&mut block);
    block
}

#[test]
fn five_lists_of_other_than_one_length_are_29() {
    for other in [0, 1, 3, 400] {
        let blocks = [
            uneven(|block| block.buyers.resize(other, 0)),
            uneven(|block| block.sellers.resize(other, 0)),
            uneven(|block| block.prices.resize(other, 0)),
            uneven(|block| block.lots.resize(other, 0)),
            uneven(|block| block.answers = other),
        ];
        for block in blocks {
            let mut book = three();
            let untouched = vec![99; block.answers];
            assert_eq!(given(&mut book, &block), (29, untouched), "{block:?}");
            assert_eq!(book, three());
        }
    }
}

#[test]
fn lists_that_differ_are_29_before_every_trade_and_on_an_expired_book() {
    let mut book = three();
    book.expired = true;
    let mut wrong = block(&[(9, 9, 0, 0), (9, 9, 0, 0)]);
    wrong.lots.pop();
    assert_eq!(given(&mut book, &wrong).0, 29);
    let only_answers = Block {
        answers: 1,
        ..Block::default()
    };
    assert_eq!(given(&mut book, &only_answers), (29, vec![99]));
}

#[test]
fn a_bad_book_is_1_before_29() {
    let mut book = three();
    book.sections[0].position = 1;
    let before = book.clone();
    for block in [
        Block::default(),
        uneven(|_| {}),
        uneven(|block| block.answers = 1),
        uneven(|block| block.buyers.clear()),
    ] {
        let untouched = vec![99; block.answers];
        assert_eq!(given(&mut book, &block), (1, untouched));
        assert_eq!(book, before);
    }
}

/// All trades of a file in one block, on a book of five sections.
#[test]
fn a_block_comes_to_the_same_as_its_single_calls() {
    let mut most = 0;
    for file in (0..320).map(file) {
        let Ok((_, mut book)) = answers::opened(&file) else {
            continue;
        };
        for i in 0..5 {
            let text = format!("S{i:06}");
            book.section(0, true, code(&text), 0).unwrap();
        }
        let mut single = book.clone();
        let events = (0..).map_while(|next| match (Reader { file: &file, next }).read().event {
            Err(Refusal::PlaceBeyond) => None,
            event => Some(event.ok()),
        });
        let block = Block::of(&events.flatten().collect::<Vec<_>>());
        let number = |i: usize| {
            let (buyer, seller) = (block.buyers[i], block.sellers[i]);
            let answer = single.trade(buyer, seller, block.prices[i], block.lots[i]);
            answer.map_or_else(Refusal::number, |()| 0)
        };
        let wanted: Vec<u8> = (0..block.answers).map(number).collect();
        assert!(given(&mut book, &block) == (0, wanted) && book == single);
        most = most.max(block.answers);
    }
    assert!(most > 3_000, "{most} trades");
}
