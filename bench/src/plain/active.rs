use super::place::{at, at_mut};

#[derive(PartialEq, Eq)]
pub enum Turn {
    Send,
    Granted,
}

#[derive(Clone, Copy, Default)]
pub struct Class {
    pub deficit: u64,
    granted: u64,
    pub quantum: u32,
    pub next: u16,
    pub before: u16,
    pub is_active: bool,
}

/// The active list of deficit round robin, linked in a ring through its classes by number.
#[derive(Default)]
pub struct Active {
    pub classes: Vec<Class>,
    pub front: u16,
    pub count: u32,
    turns: u64,
}

impl Active {
    pub fn add(&mut self, class: u16, quantum: u32) {
        let index = usize::from(class);
        if self.classes.len() <= index {
            self.classes.resize(index + 1, Class::default());
        }
        self.classes[index].quantum = quantum;
    }

    #[inline(always)]
    pub fn wake(&mut self, class: u16) {
        if !at(&self.classes, class.into()).is_active {
            self.start(class);
        }
    }

    #[inline(never)]
    fn start(&mut self, class: u16) {
        let front = if self.count == 0 { class } else { self.front };
        let before = if self.count == 0 {
            class
        } else {
            self.classes[usize::from(front)].before
        };
        let state = &mut self.classes[usize::from(class)];
        state.is_active = true;
        state.deficit = state.quantum.into();
        state.granted = 0;
        state.next = front;
        state.before = before;
        self.classes[usize::from(before)].next = class;
        self.classes[usize::from(front)].before = class;
        self.front = front;
        self.count += 1;
    }

    #[inline(never)]
    pub fn sleep(&mut self, class: u16) {
        let state = &mut self.classes[usize::from(class)];
        if !state.is_active {
            return;
        }
        state.is_active = false;
        let (next, before) = (state.next, state.before);
        self.classes[usize::from(before)].next = next;
        self.classes[usize::from(next)].before = before;
        if self.front == class {
            self.front = next;
        }
        self.count -= 1;
    }

    #[inline(always)]
    pub fn front(&self) -> Option<u16> {
        if self.count == 0 { None } else { Some(self.front) }
    }

    /// Whether the class in front may send a packet of this length. There is one.
    #[inline(always)]
    pub fn turn(&mut self, head_len: u16) -> Turn {
        self.turns = self.turns.saturating_add(1);
        let state = at_mut(&mut self.classes, self.front.into());
        let head_len = u64::from(head_len);
        if head_len <= state.deficit {
            state.deficit -= head_len;
            return Turn::Send;
        }
        let quantum = u64::from(state.quantum);
        state.deficit += quantum;
        state.granted = state.granted.saturating_add(quantum);
        self.front = state.next;
        Turn::Granted
    }
}
