//! Stands in for the original's pool, with one thread: the caller's.

use crate::coder_scratch::CoderScratch;

pub(crate) struct ThreadPool;

impl ThreadPool {
    pub(crate) fn num_threads(&self) -> usize {
        1
    }

    pub(crate) fn steal_map<T>(
        &self,
        scratch: &mut CoderScratch,
        tasks: usize,
        task: impl Fn(usize, &mut CoderScratch) -> T,
    ) -> Vec<T> {
        (0..tasks).map(|k| task(k, scratch)).collect()
    }
}
