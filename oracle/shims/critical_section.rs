//! `critical_section`: the record notes which accesses are made inside.

pub struct CriticalSection;

pub fn with<R>(body: impl FnOnce(CriticalSection) -> R) -> R {
    record::hold(true);
    let result = body(CriticalSection);
    record::hold(false);
    result
}
