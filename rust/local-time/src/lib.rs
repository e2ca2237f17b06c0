//! The offset of the system's time zone from UTC, as the C library has it from `TZ` or `/etc/localtime`, which it reads once: one `unsafe` call.

/// The seconds by which local time is ahead of UTC, at a time in seconds after the first of January 1970, UTC. `None` if the C library has no such time.
#[must_use]
pub fn offset_at(seconds: i64) -> Option<i32> {
    let seconds = libc::time_t::try_from(seconds).ok()?;
    // SAFETY: `tm` is valid with all its bytes 0, and both addresses live until the call has returned.
    let parts = unsafe {
        let mut parts: libc::tm = std::mem::zeroed();
        (!libc::localtime_r(&raw const seconds, &raw mut parts).is_null()).then_some(parts)
    };
    i32::try_from(parts?.tm_gmtoff).ok()
}
