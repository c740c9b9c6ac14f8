//! The structs that cross C have C's layout: 32-bit fields in order, with nothing between them.
use pipnn_gateway::sys::{PipnnFound, PipnnHousehold, PipnnRecognised};
use std::mem::{align_of, offset_of, size_of};

#[test]
fn found() {
    assert_eq!((size_of::<PipnnFound>(), align_of::<PipnnFound>()), (12, 4));
    assert_eq!(offset_of!(PipnnFound, number), 0);
    assert_eq!(offset_of!(PipnnFound, count), 4);
    assert_eq!(offset_of!(PipnnFound, scored), 8);
}

#[test]
fn recognised() {
    assert_eq!((size_of::<PipnnRecognised>(), align_of::<PipnnRecognised>()), (16, 4));
    assert_eq!(offset_of!(PipnnRecognised, number), 0);
    assert_eq!(offset_of!(PipnnRecognised, known), 4);
    assert_eq!(offset_of!(PipnnRecognised, doc), 8);
    assert_eq!(offset_of!(PipnnRecognised, score), 12);
}

#[test]
fn household() {
    assert_eq!((size_of::<PipnnHousehold>(), align_of::<PipnnHousehold>()), (8, 4));
    assert_eq!(offset_of!(PipnnHousehold, number), 0);
    assert_eq!(offset_of!(PipnnHousehold, phones), 4);
}
