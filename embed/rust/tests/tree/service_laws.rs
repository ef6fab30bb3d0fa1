//! The laws of service as `q_laws::laws` states them, over plain numbers: what may be given from
//! one state of the rounds to a later one.
use crate::rounds::{List, Member, Rounds};

/// A class or a flow at two times.
pub struct Span {
    pub first: Member,
    pub last: Member,
}

impl Span {
    /// That of this number, in the rounds at two times.
    pub fn of(first: &Rounds, last: &Rounds, i: usize) -> Span {
        Span {
            first: first.members[i],
            last: last.members[i],
        }
    }

    /// The bytes that it gave meanwhile.
    pub fn given(&self) -> i64 {
        self.last.given - self.first.given
    }

    /// How often it was granted.
    pub fn grants(&self) -> i64 {
        self.last.grants - self.first.grants
    }

    fn quantum(&self) -> i64 {
        self.first.quantum
    }
}

/// Whether class j sent no more than class i, which was backlogged, lets it send: a quantum for
/// each grant to i, and its first deficit; of that, where it was not before class i, only what is
/// above a quantum.
pub fn class_against_any(i: &Span, j: &Span, mtu: i64) -> bool {
    j.given() <= i.grants() * j.quantum() + deficit_counted(i, j) && is_in_quanta(i, j, mtu)
}

fn deficit_counted(i: &Span, j: &Span) -> i64 {
    let is_before = j.first.list == List::Old && j.first.place < i.first.place;
    if is_before {
        j.first.left
    } else {
        (j.first.left - j.quantum()).max(0)
    }
}

/// The same in the quanta of both.
fn is_in_quanta(i: &Span, j: &Span, mtu: i64) -> bool {
    let (one, other) = (i.quantum(), j.quantum());
    j.given() * one <= i.given() * other + 2 * one * other + (mtu - 1) * (one + other)
}

/// What a class may lack of its part of all that the classes of a drr send, times the sum of their
/// quanta.
pub fn lacks_of_bytes(classes: i64, quantum: i64, quanta: i64, mtu: i64) -> i64 {
    let others = quanta - quantum;
    2 * quantum * others + (mtu - 1) * ((classes - 1) * quantum + others)
}

/// Whether class i, which was backlogged, sent its part of what all classes sent, but for what it
/// may lack.
pub fn least_share(first: &Rounds, last: &Rounds, i: usize, mtu: i64) -> bool {
    let classes = first.members.len();
    let spans = (0..classes).map(|class| Span::of(first, last, class));
    let (all, quanta) = spans.fold((0, 0), |(all, quanta), span| {
        (all + span.given(), quanta + span.quantum())
    });
    let span = Span::of(first, last, i);
    let lacks = lacks_of_bytes(classes as i64, span.quantum(), quanta, mtu);
    all * span.quantum() <= span.given() * quanta + lacks
}

/// What a flow with these credits can give before it waits for a quantum.
fn reach(credits: i64, mtu: i64) -> i64 {
    (credits + mtu - 1).max(0)
}

/// Whether flow j gave no more than flow i, which was backlogged, lets it give: two quanta less a
/// byte for each grant to i, a quantum if it was not in the new list, and what its credits let it
/// give.
pub fn flow_against_any(i: &Span, j: &Span, mtu: i64) -> bool {
    let each = 2 * i.quantum() - 1;
    let joins = match j.first.list {
        List::New => 0,
        _ => i.quantum(),
    };
    j.given() <= i.grants() * each + joins + reach(j.first.left, mtu)
}

/// Whether flow j gave no more than it may between two grants of a backlogged flow.
pub fn no_flow_starves(j: &Span, mtu: i64) -> bool {
    let most = reach(j.quantum(), mtu).max(reach(j.first.left, mtu));
    j.given() < most + j.quantum()
}

/// Whether flow k gave no more than it may since another one joined that has given nothing yet.
pub fn new_flow_first(k: &Span, mtu: i64) -> bool {
    match k.first.list {
        List::New => k.given() <= reach(k.first.left, mtu),
        _ => k.given() == 0,
    }
}
