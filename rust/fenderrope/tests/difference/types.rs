//! The structs of the two crates, into one another, field by field.

use fenderrope as ours;

pub fn date_in(date: reference::Date) -> ours::Date {
    ours::Date { month: date.month, day: date.day, year: date.year }
}

pub fn date_out(date: ours::Date) -> reference::Date {
    reference::Date { month: date.month, day: date.day, year: date.year }
}

pub fn header_in(header: &reference::Header) -> ours::Header {
    ours::Header {
        version: header.version,
        country: header.country,
        length: header.length,
        issued_on: date_in(header.issued_on),
        signed_on: date_in(header.signed_on),
        definition: header.definition,
        category: header.category,
    }
}

pub fn header_out(header: ours::Header) -> reference::Header {
    reference::Header {
        version: header.version,
        country: header.country,
        length: header.length,
        issued_on: date_out(header.issued_on),
        signed_on: date_out(header.signed_on),
        definition: header.definition,
        category: header.category,
    }
}

pub fn ends_out(ends: ours::Ends) -> reference::Ends {
    reference::Ends { header: ends.header, message: ends.message, seal: ends.seal }
}

pub fn part_out(part: ours::Part) -> reference::Part {
    reference::Part { place: part.place, length: part.length }
}

pub fn reading_out(answer: ours::plain::Reading) -> reference::Reading {
    reference::Reading {
        number: answer.number,
        place: answer.place,
        header: header_out(answer.header),
        ends: ends_out(answer.ends),
        signature: part_out(answer.signature),
        count: answer.count,
        front: answer.front,
    }
}

pub fn reason_out(answer: ours::plain::Reason) -> reference::Reason {
    reference::Reason {
        number: answer.number,
        place: answer.place,
        item: answer.item,
        rule: answer.rule,
        judged: part_out(answer.judged),
    }
}

pub fn opened_out(answer: ours::plain::Start) -> reference::Opened {
    reference::Opened { number: answer.number, place: answer.place, at: answer.at }
}

pub fn step_out(answer: ours::plain::Step) -> reference::Step {
    let row = reference::Row {
        tag: answer.tag,
        tag_place: answer.tag_place,
        value_place: answer.value.place,
        value_length: answer.value.length,
    };
    reference::Step { number: answer.number, place: answer.place, row, at: answer.at }
}

pub fn shown_out(answer: ours::plain::Where) -> reference::Shown {
    reference::Shown { number: answer.number, place: answer.place, which: answer.which, value: part_out(answer.value) }
}

pub fn filled_out(answer: ours::plain::Filled) -> reference::Filled {
    reference::Filled { number: answer.number, place: answer.place, count: answer.count }
}
