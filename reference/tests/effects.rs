//! Effects, queues and priorities beyond the marks.

mod common;

use common::*;
use reference::limits::*;
use reference::{Answer, Call, Got};

#[test]
fn fresh_kernel() {
    let test = TestKernel::new();
    assert_eq!(test.running(), 1);
    assert_eq!((test.task(1).base, test.task(1).initial, test.current(1)), (8, 8, 8));
    assert!(test.kernel.store().iter().chain(test.kernel.outbox()).all(|&byte| byte == 0));
}

#[test]
fn base_priority_over_a_life() {
    let mut test = TestKernel::new();
    let task = test.code(cre_tsk(9));
    // Set while dormant, kept by the start, given back at the end.
    test.ok(chg_pri(task, 4));
    assert_eq!((test.task(task).base, test.current(task)), (4, 4));
    test.ok(sta_tsk(task));
    assert_eq!((test.running(), test.task(task).base), (task, 4));
    assert_eq!(test.run(Call::ExtTsk), Answer::Exited);
    assert_eq!((test.running(), test.task(task).base, test.current(task)), (1, 9, 9));
    test.ok(sta_tsk(task));
    assert_eq!(test.running(), 1);
    test.ok(chg_pri(task, 3));
    assert_eq!(test.running(), task);
    test.ok(chg_pri(0, 0));
    assert_eq!((test.running(), test.task(task).base), (1, 9));
    test.ok(ter_tsk(task));
    test.ok(del_tsk(task));
    assert_eq!(test.task(task).base, 0);
}

#[test]
fn chg_pri_is_a_new_arrival_in_the_ready_queue() {
    let mut test = TestKernel::new();
    let a = test.start(8);
    let b = test.start(8);
    assert_eq!(test.running(), 1);
    // The same priority again: still last.
    test.ok(chg_pri(0, 8));
    assert_eq!(test.running(), a);
    test.ok(chg_pri(b, 8));
    test.ok(chg_pri(0, 8));
    assert_eq!(test.running(), 1);
    test.ok(chg_pri(1, 0));
    assert_eq!(test.running(), b);
}

/// A kind of queue, with the attribute of its object, which has number 1.
#[derive(Clone, Copy, Debug)]
enum Queue {
    Ready,
    Mutex(i32),
    Senders(i32),
    Receivers(i32),
    Pool(i32),
}

const BY_PRIORITY: [Queue; 9] = [
    Queue::Ready,
    Queue::Mutex(1),
    Queue::Mutex(2),
    Queue::Mutex(3),
    Queue::Senders(1),
    Queue::Pool(1),
    Queue::Pool(257),
    Queue::Pool(513),
    Queue::Pool(769),
];

const BY_ARRIVAL: [Queue; 8] = [
    Queue::Mutex(0),
    Queue::Senders(0),
    Queue::Receivers(0),
    Queue::Receivers(1),
    Queue::Pool(0),
    Queue::Pool(256),
    Queue::Pool(512),
    Queue::Pool(768),
];

impl Queue {
    /// Creates the object, at which everyone has to wait.
    fn prepare(self, test: &mut TestKernel) {
        match self {
            Queue::Ready => {}
            Queue::Mutex(attribute) => {
                // The holder waits elsewhere, so that its priority is in nobody's way.
                test.code(cre_mtx(attribute, 1));
                test.code(cre_mbf(0, 0, 1));
                test.start(2);
                test.ok(loc_mtx(1, -1));
                test.waits(rcv_mbf(1, -1));
            }
            Queue::Senders(attribute) | Queue::Receivers(attribute) => {
                test.code(cre_mbf(attribute, 0, 1));
            }
            Queue::Pool(attribute) => {
                test.code(cre_mpf(attribute, 1, 1));
                test.ok(get_mpf(1, 0));
            }
        }
    }

    /// The call that waits there, and the one that ends all waits there.
    fn calls(self) -> Option<(Call, Call)> {
        match self {
            Queue::Ready => None,
            Queue::Mutex(_) => Some((loc_mtx(1, -1), del_mtx(1))),
            Queue::Senders(_) => Some((snd_mbf(1, 1, -1), del_mbf(1))),
            Queue::Receivers(_) => Some((rcv_mbf(1, -1), del_mbf(1))),
            Queue::Pool(_) => Some((get_mpf(1, -1), del_mpf(1))),
        }
    }

    /// The three tasks of the queue in its order.
    fn order(self, mut test: TestKernel) -> Vec<i32> {
        match self.calls() {
            Some((_, delete)) => {
                test.ok(delete);
                let ended = test.ended();
                assert!(ended.iter().all(|&(_, code)| code == E_DLT));
                ended.iter().map(|&(task, _)| task).collect()
            }
            None => (0..3)
                .map(|_| {
                    let running = test.running();
                    assert_eq!(test.run(Call::ExtTsk), Answer::Exited);
                    running
                })
                .collect(),
        }
    }
}

/// What keeps a task at 5.
#[derive(Clone, Copy, PartialEq, Debug)]
enum Raise {
    Nothing,
    Ceiling,
    Inheritance,
    Chain,
}

const RAISES: [Raise; 3] = [Raise::Ceiling, Raise::Inheritance, Raise::Chain];

impl Raise {
    /// Raises the running task.
    fn raise(self, test: &mut TestKernel) {
        match self {
            Raise::Nothing => {}
            Raise::Ceiling => {
                let mutex = test.code(cre_mtx(3, 5));
                test.ok(loc_mtx(mutex, -1));
            }
            Raise::Inheritance => {
                let mutex = test.code(cre_mtx(2, 0));
                test.ok(loc_mtx(mutex, -1));
                let waiter = test.start(5);
                test.as_task(waiter, |test| test.waits(loc_mtx(mutex, -1)));
            }
            Raise::Chain => {
                let [near, far] = [0, 0].map(|_| test.code(cre_mtx(2, 0)));
                test.ok(loc_mtx(near, -1));
                let (holder, waiter) = (test.start(12), test.start(5));
                test.as_task(holder, |test| {
                    test.ok(loc_mtx(far, -1));
                    test.waits(loc_mtx(near, -1));
                });
                test.as_task(waiter, |test| test.waits(loc_mtx(far, -1)));
            }
        }
    }
}

/// Three tasks of a queue, all at 5, as they arrived. The second has the base 5 and the initial
/// priority 11; it is the one that is kept up.
fn three_equals(queue: Queue, raise: Raise) -> (TestKernel, [i32; 3]) {
    three_equals_with_initial(11, queue, raise)
}

/// The same with another initial priority of the second.
fn three_equals_with_initial(initial: i32, queue: Queue, raise: Raise) -> (TestKernel, [i32; 3]) {
    let mut test = TestKernel::new();
    queue.prepare(&mut test);
    let second = test.code(cre_tsk(initial));
    test.ok(chg_pri(second, 5));
    test.ok(sta_tsk(second));
    raise.raise(&mut test);
    let first = test.start(5);
    assert_eq!(test.running(), second);
    let Some((wait, _)) = queue.calls() else {
        test.ok(chg_pri(second, 5));
        let last = test.start(5);
        return (test, [first, second, last]);
    };
    test.as_task(first, |test| test.waits(wait));
    test.waits(wait);
    let last = test.start(5);
    test.waits(wait);
    (test, [first, second, last])
}

/// The first of three waiters to come is changed to the priority it has.
#[test]
fn chg_pri_to_the_same_priority_in_wait_queues() {
    for (queues, by_priority) in [(&BY_PRIORITY[..], true), (&BY_ARRIVAL, false)] {
        for queue in queues {
            let Some((wait, _)) = queue.calls() else { continue };
            let mut test = TestKernel::new();
            queue.prepare(&mut test);
            let [a, b, c] = [5, 5, 4].map(|priority| {
                let task = test.start(priority);
                assert_eq!(test.running(), task);
                test.waits(wait);
                task
            });
            test.ok(chg_pri(a, 5));
            let order = if by_priority { [c, b, a] } else { [a, b, c] };
            assert_eq!(queue.order(test), order, "{queue:?}");
        }
    }
}

#[test]
fn chg_pri_of_a_task_that_is_not_raised_is_a_new_arrival() {
    for queue in BY_PRIORITY {
        for priorities in [&[5][..], &[9, 5], &[4, 5], &[0], &[9, 0]] {
            let (mut test, [first, second, last]) =
                three_equals_with_initial(5, queue, Raise::Nothing);
            for &priority in priorities {
                test.ok(chg_pri(second, priority));
                assert_eq!(test.current(second), test.task(second).base);
            }
            assert_eq!(queue.order(test), [first, last, second], "{queue:?} {priorities:?}");
        }
    }
}

/// The first change falls below what the mutex keeps up; then up, the same, down, to 0, up.
#[test]
fn chg_pri_of_a_raised_task_keeps_its_place() {
    for queue in BY_PRIORITY {
        for raise in RAISES {
            let (mut test, [first, second, last]) = three_equals(queue, raise);
            for (priority, base) in [(9, 9), (7, 7), (7, 7), (12, 12), (0, 11), (6, 6)] {
                test.ok(chg_pri(second, priority));
                assert_eq!((test.task(second).base, test.current(second)), (base, 5));
            }
            assert_eq!(queue.order(test), [first, second, last], "{queue:?} {raise:?}");
        }
    }
}

/// By its number, and by 0 where it is the initial priority.
#[test]
fn chg_pri_to_exactly_what_a_mutex_keeps_is_a_new_arrival() {
    for queue in BY_PRIORITY {
        for raise in RAISES {
            // Not raised before, and raised; then the last is behind in either case.
            for (before, exactly) in [(5, 5), (9, 5), (5, 0), (9, 0)] {
                let (mut test, [first, second, last]) = three_equals_with_initial(5, queue, raise);
                test.ok(chg_pri(second, before));
                test.ok(chg_pri(last, 5));
                test.ok(chg_pri(second, exactly));
                assert_eq!((test.task(second).base, test.current(second)), (5, 5));
                assert_eq!(queue.order(test), [first, last, second], "{queue:?} {raise:?}");
            }
        }
    }
}

/// Raised, it runs on; at exactly its level it goes behind its equal.
#[test]
fn chg_pri_of_the_raised_running_task_by_itself() {
    for raise in RAISES {
        let (mut test, [first, second, last]) = three_equals(Queue::Ready, raise);
        test.ok(chg_pri(first, 6));
        for priority in [9, 7, 7, 12, 0] {
            test.ok(chg_pri(0, priority));
            assert_eq!((test.running(), test.current(second)), (second, 5), "{raise:?}");
        }
        test.ok(chg_pri(0, 5));
        assert_eq!((test.running(), test.current(second)), (last, 5), "{raise:?}");
    }
}

/// Above what the mutex keeps up it arrives anew; falling back, it keeps that place.
#[test]
fn chg_pri_above_what_a_mutex_keeps_is_a_new_arrival() {
    for queue in BY_PRIORITY {
        for raise in [Raise::Inheritance, Raise::Chain] {
            let (mut test, [first, second, last]) = three_equals(queue, raise);
            test.ok(chg_pri(second, 9));
            test.ok(chg_pri(second, 4));
            assert_eq!(test.current(second), 4);
            test.ok(chg_pri(first, 5));
            test.ok(chg_pri(second, 9));
            assert_eq!(test.current(second), 5);
            assert_eq!(queue.order(test), [last, second, first], "{queue:?} {raise:?}");
        }
    }
}

#[test]
fn chg_pri_is_no_arrival_in_queues_by_arrival() {
    for queue in BY_ARRIVAL {
        for raise in [Raise::Nothing, Raise::Ceiling, Raise::Inheritance, Raise::Chain] {
            let (mut test, tasks) = three_equals(queue, raise);
            for priority in [5, 9, 7, 7, 12, 0, 5] {
                test.ok(chg_pri(tasks[1], priority));
            }
            if raise != Raise::Ceiling {
                test.ok(chg_pri(tasks[1], 4));
            }
            assert_eq!(queue.order(test), tasks, "{queue:?} {raise:?}");
        }
    }
}

/// The member of a circle waits for mutex 2, which its partner holds, between two others.
#[test]
fn chg_pri_in_a_circle() {
    for (priorities, keeps) in
        [(&[9, 7, 7, 12, 0, 6][..], true), (&[5], false), (&[9, 5], false), (&[4, 9], false)]
    {
        let mut test = TestKernel::new();
        test.code(cre_mtx(2, 0));
        test.code(cre_mtx(2, 0));
        let member = test.code(cre_tsk(11));
        test.ok(chg_pri(member, 5));
        test.ok(sta_tsk(member));
        test.ok(loc_mtx(1, -1));
        let partner = test.start(5);
        test.as_task(partner, |test| test.ok(loc_mtx(2, -1)));
        let first = test.start(5);
        test.as_task(first, |test| test.waits(loc_mtx(2, -1)));
        test.waits(loc_mtx(2, -1));
        test.as_task(partner, |test| test.waits(loc_mtx(1, -1)));
        let last = test.start(5);
        test.waits(loc_mtx(2, -1));
        for &priority in priorities {
            test.ok(chg_pri(member, priority));
            let current = if priority == 4 { 4 } else { 5 };
            assert_eq!((test.current(member), test.current(partner)), (current, current));
        }
        let order = if keeps { [first, member, last] } else { [first, last, member] };
        test.ok(del_mtx(2));
        assert_eq!(test.ended(), order.map(|task| (task, E_DLT)), "{priorities:?}");
    }
}

/// The look at the buffers comes last: a raised sender stays before an equal whose message fits.
#[test]
fn chg_pri_may_let_a_sender_fit() {
    let mut test = TestKernel::new();
    test.code(cre_mbf(1, 8, 32));
    test.code(cre_mtx(3, 5));
    let long = test.start(5);
    test.ok(loc_mtx(1, -1));
    test.waits(snd_mbf(1, 32, -1));
    let short = test.start(5);
    test.waits(snd_mbf(1, 4, -1));
    for priority in [9, 7, 7, 12] {
        test.ok(chg_pri(long, priority));
        assert_eq!(test.ended(), []);
    }
    test.ok(chg_pri(long, 5));
    assert_eq!(test.ended(), [(short, E_OK)]);
    assert_eq!(test.used(1), 8);
}

/// Its holder falls back to its base, but only the changed task may arrive anew.
#[test]
fn chg_pri_of_a_waiter_is_no_arrival_of_its_holder() {
    let mut test = TestKernel::new();
    test.code(cre_mtx(2, 0));
    test.ok(loc_mtx(1, -1));
    let urgent = test.start(2);
    test.waits(loc_mtx(1, -1));
    test.start(8);
    test.ok(chg_pri(urgent, 9));
    assert_eq!((test.running(), test.current(1)), (1, 8));
}

#[test]
fn mutexes_do_not_alter_arrivals() {
    let mut test = TestKernel::new();
    test.code(cre_mtx(2, 0));
    test.ok(loc_mtx(1, -1));
    let a = test.start(8);
    let urgent = test.start(2);
    test.waits(loc_mtx(1, 1));
    assert_eq!((test.running(), test.current(1)), (1, 2));
    test.ok(Call::Tick);
    assert_eq!(test.ended(), [(urgent, E_TMOUT)]);
    test.code(cre_mbf(0, 0, 1));
    test.waits(rcv_mbf(1, -1));
    // Raised and lowered again, task 1 is still before A.
    assert_eq!((test.running(), test.current(1), test.current(a)), (1, 8, 8));
}

#[test]
fn a_waiter_that_gets_the_mutex_inherits_from_the_others() {
    let mut test = TestKernel::new();
    test.code(cre_mtx(2, 0));
    test.ok(loc_mtx(1, -1));
    let b = test.start(7);
    test.waits(loc_mtx(1, -1));
    let c = test.start(5);
    test.waits(loc_mtx(1, -1));
    let d = test.start(5);
    test.rotate_to(d);
    test.waits(loc_mtx(1, -1));
    test.ok(unl_mtx(1));
    assert_eq!(test.ended(), [(c, E_OK)]);
    assert_eq!((test.current(1), test.current(b), test.current(c), test.current(d)), (8, 7, 5, 5));
    test.ok(unl_mtx(1));
    assert_eq!(test.ended(), [(d, E_OK)]);
    test.rotate_to(d);
    test.ok(unl_mtx(1));
    assert_eq!(test.ended(), [(b, E_OK)]);
}

#[test]
fn inheritance_stops_at_other_attributes() {
    for attribute in [0, 1, 3] {
        let mut test = TestKernel::new();
        test.code(cre_mtx(attribute, 2));
        test.ok(loc_mtx(1, -1));
        let raised = if attribute == 3 { 2 } else { 8 };
        assert_eq!(test.current(1), raised);
        let other = test.code(cre_tsk(8));
        test.ok(sta_tsk(other));
        test.ok(chg_pri(other, 2));
        test.rotate_to(other);
        test.waits(loc_mtx(1, -1));
        assert_eq!(test.current(1), raised);
        test.ok(unl_mtx(1));
        assert_eq!((test.current(1), test.current(other)), (8, 2));
    }
}

#[test]
fn held_ceilings_travel_along_the_chain() {
    let mut test = TestKernel::new();
    test.code(cre_mtx(2, 0));
    test.code(cre_mtx(3, 3));
    let low = test.start(12);
    test.as_task(low, |test| test.ok(loc_mtx(1, -1)));
    test.ok(loc_mtx(2, -1));
    assert_eq!(test.current(1), 3);
    test.waits(loc_mtx(1, -1));
    // The waiter's ceiling counts, not only its base.
    assert_eq!((test.running(), test.current(low)), (low, 3));
    test.ok(unl_mtx(1));
    assert_eq!((test.running(), test.current(1), test.current(low)), (1, 3, 12));
}

/// A task that ends leaves its wait first: whom it raised falls back before the mutexes go.
#[test]
fn terminated_in_a_circle() {
    let mut test = TestKernel::new();
    test.code(cre_mtx(2, 0)); // 1, held by the terminated task
    test.code(cre_mtx(2, 0)); // 2, held by the partner
    let terminated = test.start(9);
    let partner = test.start(13);
    let third = test.start(10);
    test.as_task(terminated, |test| test.ok(loc_mtx(1, -1)));
    test.as_task(partner, |test| {
        test.ok(loc_mtx(2, -1));
        test.waits(loc_mtx(1, -1));
    });
    test.as_task(third, |test| test.waits(loc_mtx(1, -1)));
    test.as_task(terminated, |test| test.waits(loc_mtx(2, -1)));
    // The circle holds the partner at 9, before the third at 10.
    assert_eq!((test.current(terminated), test.current(partner), test.current(third)), (9, 9, 10));
    test.ok(ter_tsk(terminated));
    // Alone the partner has 13, so the third gets mutex 1.
    assert_eq!(test.ended(), [(third, E_OK)]);
    assert_eq!((test.current(partner), test.current(third)), (13, 10));
}

#[test]
fn mutexes_are_given_up_from_the_lowest_number() {
    let mut test = TestKernel::new();
    for _ in 0..4 {
        test.code(cre_mtx(1, 0));
    }
    for mutex in [3, 1, 4, 2] {
        test.ok(loc_mtx(mutex, -1));
    }
    let waiters = [4, 2, 1, 3].map(|mutex| {
        let task = test.start(7);
        test.waits(loc_mtx(mutex, -1));
        (mutex, task)
    });
    let other = test.start(8);
    assert_eq!(test.run(Call::ExtTsk), Answer::Exited);
    let by = |mutex| waiters.iter().find(|w| w.0 == mutex).unwrap().1;
    assert_eq!(test.ended(), [1, 2, 3, 4].map(|mutex| (by(mutex), E_OK)));
    // They came to the ready queue in that order.
    assert_eq!(test.running(), by(1));
    assert_ne!(test.running(), other);
}

#[test]
fn blocks_stay_out_when_their_getter_ends() {
    let mut test = TestKernel::new();
    test.code(cre_mpf(0, 2, 16));
    let getter = test.start(5);
    test.ok(get_mpf(1, 0));
    assert_eq!(test.out.got, Got::Block(1));
    assert_eq!(test.run(Call::ExtTsk), Answer::Exited);
    test.ok(del_tsk(getter));
    test.ok(get_mpf(1, 0));
    assert_eq!(test.out.got, Got::Block(2));
    assert_eq!(test.code(get_mpf(1, 0)), E_TMOUT);
    test.ok(rel_mpf(1, 1));
    test.ok(rel_mpf(1, 2));
    test.ok(get_mpf(1, 0));
    assert_eq!(test.out.got, Got::Block(1));
}

#[test]
fn a_returned_block_goes_to_the_first_waiter() {
    for (attribute, first) in [(0, 0), (1, 1)] {
        let mut test = TestKernel::new();
        test.code(cre_mpf(attribute, 3, 16));
        for _ in 0..3 {
            test.ok(get_mpf(1, 0));
        }
        let tasks = [5, 4].map(|priority| {
            let task = test.start(priority);
            test.waits(get_mpf(1, -1));
            task
        });
        test.ok(rel_mpf(1, 2));
        assert_eq!(test.ended(), [(tasks[first], E_OK)]);
        assert_eq!(test.out.ended[0].got, Got::Block(2));
        assert_eq!(test.running(), tasks[first]);
        // It is out again, and the waiter itself may return another's.
        test.ok(rel_mpf(1, 1));
        assert_eq!(test.ended(), [(tasks[1 - first], E_OK)]);
    }
}

#[test]
fn deletions_end_waits_in_the_order_of_the_beginning() {
    // The holder waits in the mutex's queue's order no longer, but its waiters are ended by the
    // priorities that stood when the call began: A raised by C, then B.
    let mut test = TestKernel::new();
    test.code(cre_mtx(2, 0)); // 1: to be deleted
    test.code(cre_mtx(2, 0)); // 2: held by A, awaited by C
    test.ok(loc_mtx(1, -1));
    let a = test.start(7);
    test.ok(loc_mtx(2, -1));
    test.waits(loc_mtx(1, -1));
    let b = test.start(5);
    test.waits(loc_mtx(1, -1));
    let c = test.start(3);
    test.waits(loc_mtx(2, -1));
    assert_eq!((test.current(a), test.current(b), test.current(c)), (3, 5, 3));
    test.ok(del_mtx(1));
    assert_eq!(test.ended(), [(a, E_DLT), (b, E_DLT)]);
    assert_eq!((test.current(1), test.running()), (8, a));
}

/// In a circle the first waiter is raised through the deleted mutex itself.
#[test]
fn a_deletion_in_a_circle_keeps_the_order_of_the_beginning() {
    let mut test = TestKernel::new();
    test.code(cre_mtx(2, 0)); // 1: held by the holder, to be deleted
    test.code(cre_mtx(2, 0)); // 2: held by the waiter
    let holder = test.start(14);
    let waiter = test.start(12);
    let urgent = test.start(10);
    test.as_task(holder, |test| test.ok(loc_mtx(1, -1)));
    test.as_task(waiter, |test| {
        test.ok(loc_mtx(2, -1));
        test.waits(loc_mtx(1, -1));
    });
    test.as_task(holder, |test| test.waits(loc_mtx(2, -1)));
    test.ok(chg_pri(urgent, 1));
    test.waits(loc_mtx(1, -1));
    test.ok(chg_pri(urgent, 10));
    // Equally urgent, and the waiter came first; without the mutex it would have 12.
    assert_eq!([holder, waiter, urgent].map(|task| test.current(task)), [10, 10, 10]);
    test.ok(del_mtx(1));
    assert_eq!(test.ended(), [(waiter, E_DLT), (urgent, E_DLT)]);
    assert_eq!([holder, waiter, urgent].map(|task| test.current(task)), [14, 12, 10]);
}

#[test]
fn a_deleted_mutex_is_lost_by_its_holder() {
    let mut test = TestKernel::new();
    test.code(cre_mtx(3, 2));
    test.ok(loc_mtx(1, -1));
    assert_eq!(test.current(1), 2);
    test.ok(del_mtx(1));
    assert_eq!(test.current(1), 8);
    assert_eq!(test.code(unl_mtx(1)), E_NOEXS);
    assert_eq!(test.code(cre_mtx(0, 0)), 1);
    assert_eq!(test.code(unl_mtx(1)), E_ILUSE);
}

/// Deleting a mutex lowers its holder, which heads the senders elsewhere.
#[test]
fn a_deletion_may_let_a_sender_fit() {
    let mut test = TestKernel::new();
    test.code(cre_mtx(3, 2));
    test.code(cre_mbf(1, 8, 32));
    let big = test.start(7);
    test.ok(loc_mtx(1, -1));
    test.waits(snd_mbf(1, 32, -1));
    let small = test.start(5);
    test.waits(snd_mbf(1, 4, -1));
    test.ok(del_mtx(1));
    assert_eq!(test.ended(), [(small, E_OK)]);
    assert_eq!((test.current(big), test.used(1)), (7, 8));
}

#[test]
fn deleted_buffers_leave_zeros() {
    let mut test = TestKernel::new();
    test.code(cre_mbf(1, 20, 32));
    test.ok(snd_mbf(1, 16, -1));
    let tasks = [5, 3].map(|priority| {
        let task = test.start(priority);
        test.waits(snd_mbf(1, 32, -1));
        task
    });
    test.ok(del_mbf(1));
    assert_eq!(test.ended(), [(tasks[1], E_DLT), (tasks[0], E_DLT)]);
    assert!(test.kernel.store().iter().chain(test.kernel.outbox()).all(|&byte| byte == 0));
    assert_eq!(test.code(cre_mbf(0, 256, 1)), 1);
    assert_eq!(test.code(rcv_mbf(1, 0)), E_TMOUT);
}

/// An urgent caller is stored past a waiting sender; an equally urgent one is not.
#[test]
fn the_caller_would_head_the_senders() {
    let mut test = TestKernel::new();
    test.code(cre_mbf(1, 20, 32));
    let waiter = test.start(5);
    test.waits(snd_mbf(1, 32, -1));
    let equal = test.start(5);
    assert_eq!(test.code(snd_mbf(1, 4, 0)), E_TMOUT);
    test.waits(snd_mbf(1, 4, -1));
    let urgent = test.start(4);
    test.ok(snd_mbf(1, 8, 0));
    assert_eq!((test.running(), test.used(1)), (urgent, 12));
    test.waits(snd_mbf(1, 16, -1));
    // Now the urgent one heads and fits no longer; with its end the first waits on.
    test.ok(ter_tsk(urgent));
    assert_eq!(test.ended(), []);
    assert!(test.kernel.outbox()[(urgent as usize - 1) * MESSAGE..][..MESSAGE] == [0; MESSAGE]);
    test.ok(ter_tsk(waiter));
    assert_eq!(test.ended(), [(equal, E_OK)]);
    assert_eq!(test.used(1), 20);
}

#[test]
fn stored_messages_come_oldest_first() {
    let mut test = TestKernel::new();
    test.code(cre_mbf(0, 64, 32));
    for length in [3, 7, 12] {
        test.ok(snd_mbf(1, length, -1));
    }
    assert_eq!(test.used(1), 8 + 12 + 16);
    for length in [3, 7, 12] {
        assert_eq!(test.kernel.next_message(1), &message(32)[..length as usize]);
        assert_eq!(test.code(rcv_mbf(1, -1)), length);
        assert_eq!(test.out.got, Got::Message(message(length as usize)));
    }
    assert!(test.kernel.store().iter().all(|&byte| byte == 0));
}

#[test]
fn the_next_message_is_shown_where_it_lies() {
    let mut test = TestKernel::new();
    for buffer in [0, -1, 1, 4, 5, i32::MIN] {
        assert!(test.kernel.next_message(buffer).is_empty());
    }
    test.code(cre_mbf(0, 8, 32));
    assert!(test.kernel.next_message(1).is_empty());
    test.start(8);
    test.ok(snd_mbf(1, 2, -1));
    test.waits(snd_mbf(1, 32, -1));
    let within = |area: &[u8], part: &[u8]| area.as_ptr_range().contains(&part.as_ptr());
    let shown = test.kernel.next_message(1);
    assert_eq!(shown, [1, 2]);
    assert!(within(test.kernel.store(), shown));
    assert_eq!(test.code(rcv_mbf(1, 0)), 2);
    let shown = test.kernel.next_message(1);
    assert_eq!(shown, message(32));
    assert!(within(test.kernel.outbox(), shown));
    // Also while nobody runs.
    test.run(Call::ExtTsk);
    assert_eq!(test.running(), 0);
    assert_eq!(test.kernel.next_message(1), message(32));
}

#[test]
fn ticks_end_waits_in_task_order() {
    let mut test = TestKernel::new();
    test.code(cre_mbf(0, 0, 8));
    // Later tasks wait first and are more urgent.
    let tasks: Vec<i32> = (0..4).map(|_| test.code(cre_tsk(8))).collect();
    for (i, &task) in tasks.iter().enumerate().rev() {
        test.ok(chg_pri(task, 7 - i as i32));
        test.ok(sta_tsk(task));
        test.waits(rcv_mbf(1, 3));
    }
    test.waits(rcv_mbf(1, 4));
    assert_eq!(test.running(), 0);
    test.uneventful_ticks(2);
    test.ok(Call::Tick);
    assert_eq!(test.ended(), tasks.iter().map(|&task| (task, E_TMOUT)).collect::<Vec<_>>());
    assert_eq!(test.running(), tasks[3]);
    test.ok(Call::Tick);
    assert_eq!(test.ended(), [(1, E_TMOUT)]);
}

#[test]
fn the_longest_timeout() {
    let mut test = TestKernel::new();
    test.code(cre_mbf(0, 0, 8));
    test.waits(rcv_mbf(1, i32::MAX));
    test.uneventful_ticks(2);
    assert_eq!(test.task(1).left, i32::MAX as u32 - 2);
}

/// All due waits end before the buffers are looked at: a sender due in the same tick times out.
#[test]
fn timeouts_come_before_the_look_at_the_buffers() {
    for (timeout, code) in [(2, E_TMOUT), (3, E_OK)] {
        let mut test = TestKernel::new();
        test.code(cre_mbf(0, 8, 32));
        let long = test.start(7);
        test.waits(snd_mbf(1, 32, 2));
        let short = test.start(6);
        test.waits(snd_mbf(1, 4, timeout));
        test.uneventful_ticks(1);
        test.ok(Call::Tick);
        assert_eq!(test.ended(), [(long, E_TMOUT), (short, code)]);
        assert_eq!(test.used(1), if code == E_OK { 8 } else { 0 });
    }
}

#[test]
fn a_tick_works_with_nobody_running() {
    let mut test = TestKernel::new();
    test.code(cre_mpf(0, 1, 1));
    test.ok(get_mpf(1, 0));
    test.waits(get_mpf(1, 2));
    assert_eq!(test.running(), 0);
    assert_eq!(test.code(rel_mpf(1, 1)), E_CTX);
    test.uneventful_ticks(1);
    test.ok(Call::Tick);
    assert_eq!((test.ended(), test.running()), (vec![(1, E_TMOUT)], 1));
}

#[test]
fn several_buffers_are_served_in_order() {
    let mut test = TestKernel::new();
    test.code(cre_mbf(0, 8, 32));
    test.code(cre_mbf(0, 8, 32));
    // At each buffer a long message that times out, then a short one; buffer 2 has the lower tasks.
    let [long_2, long_1] = [2, 1].map(|buffer| {
        let task = test.start(7);
        test.waits(snd_mbf(buffer, 32, 1));
        task
    });
    let [short_2, short_1] = [2, 1].map(|buffer| {
        let task = test.start(7);
        test.waits(snd_mbf(buffer, 4, -1));
        task
    });
    test.ok(Call::Tick);
    let ended = [(long_2, E_TMOUT), (long_1, E_TMOUT), (short_1, E_OK), (short_2, E_OK)];
    assert_eq!(test.ended(), ended);
    assert_eq!((test.used(1), test.used(2)), (8, 8));
}

#[test]
fn one_receive_may_let_several_senders_fit() {
    let mut test = TestKernel::new();
    test.code(cre_mbf(0, 40, 32));
    test.ok(snd_mbf(1, 32, -1));
    let tasks = [7, 6, 5, 4].map(|priority| {
        let task = test.start(priority);
        test.waits(snd_mbf(1, 8, -1));
        task
    });
    assert_eq!(test.code(rcv_mbf(1, -1)), 32);
    // 12 bytes each: three fit in 40.
    assert_eq!(test.ended(), tasks[..3].iter().map(|&task| (task, E_OK)).collect::<Vec<_>>());
    assert_eq!((test.used(1), test.running()), (36, tasks[2]));
}
