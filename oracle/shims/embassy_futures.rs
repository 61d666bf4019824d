//! `embassy_futures`: `select`, which only the async driver uses. It is compiled and never run.

pub mod select {
    use std::future::Future;

    pub enum Either<A, B> {
        First(A),
        Second(B),
    }

    pub async fn select<A: Future, B: Future>(first: A, _second: B) -> Either<A::Output, B::Output> {
        Either::First(first.await)
    }
}
