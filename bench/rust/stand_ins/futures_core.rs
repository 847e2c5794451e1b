//! Stands in for the crate futures-core: the names that futures-intrusive uses of it.

pub mod future {
    pub use std::future::Future;

    pub trait FusedFuture: Future {
        fn is_terminated(&self) -> bool;
    }
}

pub mod stream {
    use std::pin::Pin;
    use std::task::{Context, Poll};

    pub trait Stream {
        type Item;

        fn poll_next(self: Pin<&mut Self>, cx: &mut Context<'_>) -> Poll<Option<Self::Item>>;
    }

    pub trait FusedStream: Stream {
        fn is_terminated(&self) -> bool;
    }
}

pub mod task {
    pub use std::task::{Context, Poll, Waker};
}
