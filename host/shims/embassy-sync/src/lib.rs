//! `embassy-sync`: a channel with `N` places and a waker, and what a comparison needs to see of them.

pub mod channel {
    use std::{
        collections::VecDeque,
        marker::PhantomData,
        ptr,
        sync::{Mutex, MutexGuard},
        task::{Context, Poll, Waker},
    };

    use trace::Event;

    #[derive(Debug, PartialEq, Eq, Clone, Copy)]
    pub enum TrySendError<T> {
        Full(T),
    }

    struct State<T> {
        queue: VecDeque<T>,
        receiver: Option<Waker>,
        lost: Vec<T>,
    }

    pub struct Channel<M, T, const N: usize>(Mutex<State<T>>, PhantomData<M>);

    impl<M, T: Copy, const N: usize> Channel<M, T, N> {
        #[allow(clippy::new_without_default)]
        pub const fn new() -> Self {
            let state = State { queue: VecDeque::new(), receiver: None, lost: Vec::new() };
            Channel(Mutex::new(state), PhantomData)
        }

        fn state(&self) -> MutexGuard<'_, State<T>> {
            self.0.lock().unwrap()
        }

        pub fn try_send(&self, message: T) -> Result<(), TrySendError<T>> {
            trace::before("offer");
            let mut state = self.state();
            let room = state.queue.len() < N;
            trace::push(Event::Offer { channel: self.address(), stored: room });
            if !room {
                state.lost.push(message);
                return Err(TrySendError::Full(message));
            }
            state.queue.push_back(message);
            if let Some(waker) = state.receiver.take() {
                waker.wake();
            }
            Ok(())
        }

        pub fn try_receive(&self) -> Option<T> {
            self.state().queue.pop_front()
        }

        pub fn poll_receive(&self, context: &mut Context<'_>) -> Poll<T> {
            if let Some(message) = self.try_receive() {
                return Poll::Ready(message);
            }
            self.state().receiver = Some(context.waker().clone());
            Poll::Pending
        }

        /// The messages that wait, the oldest first.
        pub fn waiting(&self) -> Vec<T> {
            self.state().queue.iter().copied().collect()
        }

        /// The messages that found the channel full since this was last asked.
        pub fn take_lost(&self) -> Vec<T> {
            std::mem::take(&mut self.state().lost)
        }

        /// What stands for this channel in the trace.
        pub fn address(&self) -> usize {
            ptr::from_ref(self).addr()
        }
    }
}

pub mod waitqueue {
    use std::{ptr, sync::Mutex, task::Waker};

    pub struct AtomicWaker(Mutex<Option<Waker>>);

    impl AtomicWaker {
        #[allow(clippy::new_without_default)]
        pub const fn new() -> Self {
            AtomicWaker(Mutex::new(None))
        }

        pub fn register(&self, waker: &Waker) {
            *self.0.lock().unwrap() = Some(waker.clone());
        }

        pub fn wake(&self) {
            trace::before("wake");
            trace::push(trace::Event::Wake { waker: self.address() });
            if let Some(waker) = self.0.lock().unwrap().as_ref() {
                waker.wake_by_ref();
            }
        }

        /// What stands for this waker in the trace.
        pub fn address(&self) -> usize {
            ptr::from_ref(self).addr()
        }
    }
}
