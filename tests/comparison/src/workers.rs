//! Work on many things at once, with a thread for each processor.

use crate::report::Part;
use std::iter;
use std::sync::atomic::{AtomicUsize, Ordering};
use std::sync::Mutex;
use std::thread;

/// What the work gives for each thing, in their order.
pub fn for_each<I: Sync, T: Send>(things: &[I], work: impl Fn(&I) -> T + Sync) -> Vec<T> {
    let next = AtomicUsize::new(0);
    let work_on_some = || {
        let numbers = iter::repeat_with(|| next.fetch_add(1, Ordering::Relaxed));
        let done = |number| things.get(number).map(|thing| (number, work(thing)));
        numbers.map_while(done).collect::<Vec<_>>()
    };
    let processors = thread::available_parallelism().map_or(1, usize::from);
    let mut all: Vec<_> = thread::scope(|scope| {
        let threads: Vec<_> = (0..processors).map(|_| scope.spawn(work_on_some)).collect();
        threads.into_iter().flat_map(|thread| thread.join().expect("the work ends")).collect()
    });
    all.sort_by_key(|&(number, _)| number);
    all.into_iter().map(|(_, done)| done).collect()
}

/// Judges each thing, and takes what the right ones come to as they come; the wrong ones and how they
/// differ, in their order.
pub fn judge_each<'a, I: Sync, T: Send, E: Send>(
    part: &Part,
    things: &'a [I],
    judge: impl Fn(&I) -> Result<T, E> + Sync,
    take: impl FnMut(T) + Send,
) -> Vec<(&'a I, E)> {
    let take = Mutex::new(take);
    let judged = for_each(things, |thing| {
        let judged = judge(thing);
        part.done();
        judged.map(|came_to| (take.lock().expect("no thread fails with it"))(came_to)).err()
    });
    let wrong = |(thing, what): (&'a I, Option<E>)| what.map(|what| (thing, what));
    things.iter().zip(judged).filter_map(wrong).collect()
}
