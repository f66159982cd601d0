//! Numbers of objects, one type for each kind, and sets of tasks.

use crate::limits::{BUFFERS, MUTEXES, POOLS, TASKS};

macro_rules! number {
    ($(#[$doc:meta])* $name:ident, $limit:expr) => {
        $(#[$doc])*
        #[derive(Clone, Copy, PartialEq, Eq, PartialOrd, Ord, Debug)]
        pub struct $name(u8);

        impl $name {
            /// The number given in a record, if it is in range.
            #[inline]
            pub fn new(field: i32) -> Option<Self> {
                if field >= 1 && field <= $limit as i32 {
                    Some(Self(field as u8))
                } else {
                    None
                }
            }

            /// Every number of the kind, upwards.
            #[inline]
            pub fn all() -> impl ExactSizeIterator<Item = Self> {
                (1..=$limit as u8).map(Self)
            }

            #[inline]
            pub fn get(self) -> u8 {
                self.0
            }

            /// Where the object lies in its table.
            #[inline]
            pub(crate) fn index(self) -> usize {
                usize::from(self.0) - 1
            }

            #[inline]
            #[allow(dead_code)]
            pub(crate) fn from_index(index: usize) -> Self {
                debug_assert!(index < $limit);
                Self(index as u8 + 1)
            }
        }
    };
}

number!(
    /// The number of a task.
    TaskNo,
    TASKS
);
number!(
    /// The number of a mutex.
    MutexNo,
    MUTEXES
);
number!(
    /// The number of a message buffer.
    BufferNo,
    BUFFERS
);
number!(
    /// The number of a fixed pool.
    PoolNo,
    POOLS
);

/// A set of tasks, one bit each.
#[derive(Clone, Copy, PartialEq, Eq, Default, Debug)]
pub struct TaskSet(u64);

const _: () = assert!(TASKS <= u64::BITS as usize);

impl TaskSet {
    pub const EMPTY: TaskSet = TaskSet(0);

    #[inline]
    pub fn insert(&mut self, task: TaskNo) {
        self.0 |= 1 << task.index();
    }

    #[inline]
    pub fn remove(&mut self, task: TaskNo) {
        self.0 &= !(1 << task.index());
    }

    #[inline]
    pub fn contains(self, task: TaskNo) -> bool {
        self.0 & (1 << task.index()) != 0
    }

    #[inline]
    pub fn is_empty(self) -> bool {
        self.0 == 0
    }

    #[inline]
    pub fn len(self) -> usize {
        self.0.count_ones() as usize
    }
}

/// Goes through the tasks in the order of their numbers.
impl Iterator for TaskSet {
    type Item = TaskNo;

    #[inline]
    fn next(&mut self) -> Option<TaskNo> {
        if self.0 == 0 {
            return None;
        }
        let index = self.0.trailing_zeros() as usize;
        self.0 &= self.0 - 1;
        Some(TaskNo::from_index(index))
    }
}
