//! A year's course: what is told of it, in its usual order.

use super::aimed::aimed;
use super::manner::{closing, corrected, payment, Manner};
use crate::book::Book;
use crate::random::Random;
use crate::records::{Closing, Day, Opening, Record, Settlement};

/// In which order the days of a month are posted.
#[derive(Clone, Copy)]
pub enum Order {
    Forward,
    Backward,
    Mixed,
}

pub struct Course {
    pub opening: Opening,
    /// How many months are posted and closed.
    pub months: u8,
    pub manner: Manner,
    pub order: Order,
    /// Some days of the next month come before a month is closed.
    pub ahead: bool,
    /// At most so many corrections before and after each closing.
    pub corrections: u32,
    /// At most so many payments after each closing.
    pub payments: u32,
    /// The month after whose closing the account is settled.
    pub settled_after: Option<u8>,
    pub settlement: Settlement,
    /// So many corrections after all this.
    pub afterwards: u32,
    /// Percent of the places at which a call goes wrong.
    pub missteps: u32,
}

pub fn tell(random: &mut Random, book: &mut Book, course: &Course) {
    misstep(random, book, course);
    book.call(Record::Open(course.opening));
    for month in 0..course.months {
        post_month(random, book, month, course.order, &course.manner);
        if course.ahead && month < 11 {
            post_some(random, book, month + 1, &course.manner);
        }
        correct_up_to(random, book, &course.manner, course.corrections);
        misstep(random, book, course);
        let closing = closing(random, month);
        book.call(Record::Close(closing));
        correct_up_to(random, book, &course.manner, course.corrections);
        for _ in 0..random.between(0, course.payments) {
            let amount = payment(random);
            book.call(Record::Pay(amount));
        }
        misstep(random, book, course);
        if course.settled_after == Some(month) {
            book.call(Record::Settle(course.settlement));
            misstep(random, book, course);
        }
    }
    correct_some(random, book, &course.manner, course.afterwards);
    misstep(random, book, course);
}

fn misstep(random: &mut Random, book: &mut Book, course: &Course) {
    while random.chance(course.missteps) {
        let record = aimed(random, book, 30);
        book.call(record);
    }
}

/// Posts all days of the month that are not posted.
pub fn post_month(random: &mut Random, book: &mut Book, month: u8, order: Order, manner: &Manner) {
    let mut days = book.unposted(month);
    match order {
        Order::Forward => {}
        Order::Backward => days.reverse(),
        Order::Mixed => random.shuffle(&mut days),
    }
    for day in days {
        let day = manner.day(random, month, day);
        book.call(Record::Post(day));
    }
}

fn post_some(random: &mut Random, book: &mut Book, month: u8, manner: &Manner) {
    let mut days = book.unposted(month);
    random.shuffle(&mut days);
    days.truncate(random.place(6));
    for day in days {
        let day = manner.day(random, month, day);
        book.call(Record::Post(day));
    }
}

/// Posts the days of the month that are not posted, each as the rule says.
pub fn post_each(book: &mut Book, month: u8, mut rule: impl FnMut(u8) -> Day) {
    for day in book.unposted(month) {
        book.call(Record::Post(rule(day)));
    }
}

fn correct_up_to(random: &mut Random, book: &mut Book, manner: &Manner, most: u32) {
    let count = random.between(0, most);
    correct_some(random, book, manner, count);
}

/// So many corrections of posted days. Some of them change nothing.
pub fn correct_some(random: &mut Random, book: &mut Book, manner: &Manner, count: u32) {
    for _ in 0..count {
        let posted = book.posted();
        if posted.is_empty() {
            return;
        }
        let day = random.pick(&posted);
        let new = if random.chance(5) {
            day
        } else {
            corrected(random, manner, day)
        };
        book.call(Record::Correct(new));
    }
}

pub fn close(book: &mut Book, month: u8, index: u32, interruptible: u32, firm: u32) {
    book.call(Record::Close(Closing {
        month,
        index,
        interruptible,
        firm,
    }));
}

pub fn settle(book: &mut Book, final_increase: u16, interest: u16) {
    book.call(Record::Settle(Settlement {
        final_increase,
        interest,
    }));
}
