//! Work on several items at a time, with a bar on a terminal.
use indicatif::{ProgressBar, ProgressStyle};
use std::sync::atomic::{AtomicU64, AtomicUsize, Ordering};
use std::sync::Mutex;
use std::thread;

/// A bar that is drawn on standard error where that is a terminal.
fn bar(items: usize) -> ProgressBar {
    let bar = ProgressBar::new(items as u64);
    if let Ok(style) = ProgressStyle::with_template("{pos}/{len} files [{bar:30}] examined {msg}") {
        bar.set_style(style.progress_chars("=> "));
    }
    bar
}

/// The results of the work on each item, in the items' order. The work tells the steps it makes.
pub fn each<T: Sync, R: Send>(items: &[T], jobs: Option<u16>, work: impl Fn(&T, &dyn Fn(u64)) -> R + Sync) -> Vec<R> {
    let processors = || thread::available_parallelism().map_or(1, usize::from);
    let count = jobs.map_or_else(processors, usize::from).min(items.len());
    let (next, steps, bar) = (AtomicUsize::new(0), AtomicU64::new(0), bar(items.len()));
    let results = Mutex::new(Vec::with_capacity(items.len()));
    let progress = |made| bar.set_message((steps.fetch_add(made, Ordering::Relaxed) + made).to_string());
    let worker = || loop {
        let at = next.fetch_add(1, Ordering::Relaxed);
        let Some(item) = items.get(at) else { break };
        let result = work(item, &progress);
        bar.inc(1);
        // Nothing panics while it holds the lock, so it is never poisoned.
        results.lock().unwrap_or_else(|poisoned| poisoned.into_inner()).push((at, result));
    };
    thread::scope(|scope| (0..count).for_each(|_| drop(scope.spawn(worker))));
    bar.finish_and_clear();
    let mut results = results.into_inner().unwrap_or_else(|poisoned| poisoned.into_inner());
    results.sort_by_key(|(at, _)| *at);
    results.into_iter().map(|(_, result)| result).collect()
}

#[cfg(test)]
mod tests {
    use super::each;

    #[test]
    fn results_keep_the_order() {
        let items: Vec<u64> = (0..100).collect();
        for jobs in [Some(1), Some(7), None] {
            assert_eq!(
                each(&items, jobs, |item, progress| (progress(1), item * 2).1),
                items.iter().map(|n| n * 2).collect::<Vec<u64>>()
            );
        }
        assert_eq!(each(&[] as &[u8], Some(3), |_, _| 0), Vec::<u8>::new());
    }
}
