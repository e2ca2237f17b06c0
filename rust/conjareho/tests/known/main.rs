//! Known answers: bytes, and what they are. They come from the kernel's headers and not from what the library writes, so they hold its tables themselves.
//! Bytes differ from place to place, which shows a field that is elsewhere, is wider or has another byte order. A row that is wrong is named.

mod attributes;
mod canonical;
mod frames;
mod names;
mod records;
mod rows;
