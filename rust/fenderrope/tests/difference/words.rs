//! Words: those of the numbers 0 to 200, and for the codes 0 to 40 the names of items and the words of rules; and those
//! of the greatest. In every room from none to past the longest, through the plain call with guards and through the
//! crate's call; and as a refusal, an item and a rule show them.

use fenderrope::{plain, Item, Refusal, Rule, Words, ITEM_NAME_MOST, RULE_WORDS_MOST, WORDS_MOST};
use reference::inputs::lent;
use reference::Filled;

use crate::lent::bytes;
use crate::types::filled_out;
use crate::wrapper::filled;

/// A program that gives the words of a code: its answer, or that it touched what was not lent.
type Telling<'a> = dyn Fn(usize, &mut [u8]) -> Result<Filled, String> + 'a;

/// One of the library's calls that give words.
type Call = fn(usize, &mut [u8]) -> plain::Filled;

/// A list of words: its codes from 0 up to one, the reference's words and its call, and how long the longest are.
struct List {
    last: usize,
    words: fn(usize) -> &'static str,
    expected: fn(usize, &mut [u8]) -> Filled,
    most: usize,
}

const NUMBERS: List = List { last: 200, words: reference::words, expected: reference::put_words, most: WORDS_MOST };
const ITEMS: List =
    List { last: 40, words: reference::item_name, expected: reference::put_item_name, most: ITEM_NAME_MOST };
const RULES: List =
    List { last: 40, words: reference::rule_words, expected: reference::put_rule_words, most: RULE_WORDS_MOST };

impl List {
    fn codes(&self) -> impl Iterator<Item = usize> {
        (0..=self.last).chain([usize::MAX])
    }

    /// The first code and room in which the program's answer, or a byte that was lent to it, is not the reference's.
    fn compare(&self, program: &Telling) -> Result<(), String> {
        let rooms = 0..=self.most + 2;
        for (code, room) in self.codes().flat_map(|code| rooms.clone().map(move |room| (code, room))) {
            let (mut expected, mut found) = (lent(room), lent(room));
            let answers = (program(code, &mut found)?, (self.expected)(code, &mut expected));
            if answers.0 != answers.1 || found != expected {
                return Err(format!("code {code}, room {room}: {answers:?}"));
            }
        }
        Ok(())
    }

    /// A program with one fault is told apart from the reference, at the code where the fault is.
    fn noticed(&self, code: usize, program: &Telling) {
        let difference = self.compare(program).expect_err("a difference");
        assert!(difference.starts_with(&format!("code {code}, ")), "{difference}");
    }
}

/// A call of the library, with guards around what is lent.
fn guarded(call: Call) -> impl Fn(usize, &mut [u8]) -> Result<Filled, String> {
    move |code, out| {
        let mut room = bytes(out);
        let answer = call(code, room.content_mut());
        out.copy_from_slice(room.content());
        if room.guards_stay() {
            Ok(filled_out(answer))
        } else {
            Err(format!("code {code}: memory was touched that was not lent"))
        }
    }
}

#[test]
fn the_library_tells_the_words_of_the_document() {
    assert_eq!(NUMBERS.compare(&guarded(plain::words)), Ok(()));
    assert_eq!(NUMBERS.compare(&|number, out| Ok(filled(fenderrope::words(number, out)))), Ok(()));
}

#[test]
fn the_library_tells_the_names_of_items_and_the_words_of_rules() {
    assert_eq!(ITEMS.compare(&guarded(plain::item_name)), Ok(()));
    assert_eq!(ITEMS.compare(&|item, out| Ok(filled(fenderrope::item_name(item, out)))), Ok(()));
    assert_eq!(RULES.compare(&guarded(plain::rule_words)), Ok(()));
    assert_eq!(RULES.compare(&|rule, out| Ok(filled(fenderrope::rule_words(rule, out)))), Ok(()));
}

#[test]
fn the_longest_words_have_the_sizes_of_the_crate() {
    for list in [NUMBERS, ITEMS, RULES] {
        assert_eq!(list.codes().map(|code| (list.words)(code).len()).max(), Some(list.most));
    }
}

#[test]
fn a_refusal_shows_the_words() {
    for number in NUMBERS.codes() {
        let (words, refusal) = (reference::words(number), Refusal { number, place: 24, front: 0 });
        let shown = if words.is_empty() { String::new() } else { format!(": {words}") };
        assert_eq!((&*Words::of(number), &*refusal.words()), (words, words));
        assert_eq!(refusal.to_string(), format!("refused {number} at 24{shown}"));
        assert_eq!(format!("{refusal:?}"), refusal.to_string());
    }
}

/// Those that have words, by their codes, and no others.
#[test]
fn items_and_rules_show_their_words() {
    for code in ITEMS.codes() {
        let (item, name) = (Item::of_code(code), reference::item_name(code));
        assert_eq!((item.map(Item::code), &*Words::of_item(code)), ((!name.is_empty()).then_some(code), name));
        assert_eq!(item.map_or(String::new(), |item| item.to_string()), name);
    }
    for code in RULES.codes() {
        let (rule, words) = (Rule::of_code(code), reference::rule_words(code));
        assert_eq!((rule.map(Rule::code), &*Words::of_rule(code)), ((!words.is_empty()).then_some(code), words));
        assert_eq!(rule.map_or(String::new(), |rule| rule.to_string()), words);
    }
}

/// One code's words for another's, words where there are none, and one letter.
#[test]
fn other_words_are_noticed() {
    for (list, one) in [(NUMBERS, 9), (ITEMS, 17), (RULES, 18)] {
        let List { last, expected, .. } = list;
        list.noticed(one, &|code, out| Ok(expected(if code == one { one - 1 } else { code }, out)));
        list.noticed(last, &|code, out| Ok(expected(if code == last { 1 } else { code }, out)));
        list.noticed(one, &|code, out| {
            let answer = expected(code, out);
            let changed = usize::from(code == one && answer.number == 0);
            out.iter_mut().skip(2).take(changed).for_each(|byte| *byte ^= 0x20);
            Ok(answer)
        });
    }
}

/// The first code that has words is told with them cut, with another number, or with a byte changed behind them.
#[test]
fn words_cut_to_the_room_or_past_it_are_noticed() {
    for (list, first) in [(NUMBERS, 0), (ITEMS, 1), (RULES, 1)] {
        let List { words, expected, .. } = list;
        list.noticed(first, &|code, out| {
            let answer = expected(code, out);
            out.copy_from_slice(&if answer.number == 0 {
                out.to_vec()
            } else {
                words(code).as_bytes()[..out.len()].to_vec()
            });
            Ok(answer)
        });
        list.noticed(first, &|code, out| {
            let answer = expected(code, out);
            Ok(Filled { number: if answer.number == 0 { 0 } else { 44 }, ..answer })
        });
        list.noticed(0, &|code, out| {
            let answer = expected(code, out);
            out.iter_mut().skip(answer.count).take(usize::from(answer.number == 0)).for_each(|byte| *byte = 0);
            Ok(answer)
        });
    }
}
