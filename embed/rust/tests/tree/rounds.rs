//! The rounds of a drr or of an fq_codel, worked out apart from them: who is in which list, what
//! each has left to send, and how often each was granted its quantum.

/// The most classes or flows.
pub const MOST: usize = 5;

/// More visits than one poll makes.
const VISITS: u64 = 1_000_000;

/// Where a class or a flow is. The classes of a drr have one list.
#[derive(Clone, Copy, PartialEq, Eq)]
pub enum List {
    Nowhere,
    New,
    Old,
}

/// A class with its deficit, or a flow with its credits.
#[derive(Clone, Copy)]
pub struct Member {
    pub quantum: i64,
    pub left: i64,
    pub list: List,
    pub place: u64,
    pub queued: u64,
    pub grants: i64,
    pub given: i64,
}

impl Member {
    fn new(quantum: u32) -> Member {
        Member {
            quantum: quantum.into(),
            left: 0,
            list: List::Nowhere,
            place: 0,
            queued: 0,
            grants: 0,
            given: 0,
        }
    }
}

/// The classes of a drr, or the flows of an fq_codel at which no packet waits for long.
#[derive(Clone)]
pub struct Rounds {
    pub members: Vec<Member>,
    has_flows: bool,
    next: u64,
}

/// What a visit comes to.
enum Visit {
    Gives,
    GoesOn,
    Differs,
}

impl Rounds {
    /// Classes or flows with these quanta, of which nothing is queued.
    pub fn new(has_flows: bool, quanta: &[u32]) -> Rounds {
        Rounds {
            members: quanta.iter().map(|&quantum| Member::new(quantum)).collect(),
            has_flows,
            next: 0,
        }
    }

    /// Puts a class or flow at the end of a list.
    fn stand(&mut self, i: usize, list: List) {
        self.members[i].list = list;
        self.members[i].place = self.next;
        self.next += 1;
    }

    /// A packet comes. One that is in no list joins with a quantum.
    pub fn arrives(&mut self, i: usize) {
        let member = &mut self.members[i];
        member.queued += 1;
        if member.list == List::Nowhere {
            member.left = member.quantum;
            self.stand(i, if self.has_flows { List::New } else { List::Old });
        }
    }

    /// All its packets go, and it is in no list.
    pub fn sleeps(&mut self, i: usize) {
        let member = &mut self.members[i];
        (member.left, member.list, member.queued) = (0, List::Nowhere, 0);
    }

    /// A poll gives a packet of so many bytes, or none; whether that one's turn it was.
    pub fn polled(&mut self, given: Option<(usize, i64)>) -> bool {
        for _ in 0..VISITS {
            let Some(i) = self.front() else {
                return given.is_none();
            };
            let len = given.filter(|(giver, _)| *giver == i).map(|(_, len)| len);
            let visit = if self.has_flows {
                self.visit_flow(i, len)
            } else {
                self.visit_class(i, len)
            };
            match visit {
                Visit::Gives => return true,
                Visit::GoesOn => {}
                Visit::Differs => return false,
            }
        }
        false
    }

    /// A class that cannot pay for its first packet is granted, and goes to the end (tc-drr(8)).
    fn visit_class(&mut self, i: usize, len: Option<i64>) -> Visit {
        match len {
            Some(len) if len <= self.members[i].left => {
                self.give(i, len);
                if self.members[i].queued == 0 {
                    self.sleeps(i);
                }
                Visit::Gives
            }
            _ => self.grant(i),
        }
    }

    /// A flow without credits is granted and becomes old; an empty one becomes old if it is new,
    /// and else leaves (RFC 8290, section 4.2).
    fn visit_flow(&mut self, i: usize, len: Option<i64>) -> Visit {
        let member = self.members[i];
        if member.left <= 0 {
            return self.grant(i);
        }
        if member.queued == 0 {
            match member.list {
                List::New => self.stand(i, List::Old),
                _ => self.sleeps(i),
            }
            return Visit::GoesOn;
        }
        match len {
            Some(len) => {
                self.give(i, len);
                Visit::Gives
            }
            None => Visit::Differs,
        }
    }

    fn grant(&mut self, i: usize) -> Visit {
        let member = &mut self.members[i];
        member.left += member.quantum;
        member.grants += 1;
        self.stand(i, List::Old);
        Visit::GoesOn
    }

    fn give(&mut self, i: usize, len: i64) {
        let member = &mut self.members[i];
        member.left -= len;
        member.given += len;
        member.queued -= 1;
    }

    /// Who is asked first.
    fn front(&self) -> Option<usize> {
        self.first(List::New).or_else(|| self.first(List::Old))
    }

    fn first(&self, list: List) -> Option<usize> {
        let members = self.members.iter().enumerate();
        members
            .filter(|(_, member)| member.list == list)
            .min_by_key(|(_, member)| member.place)
            .map(|(i, _)| i)
    }
}
