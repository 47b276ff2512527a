//! The group planner: what a picture is to be, before its buffer is filled.

/// Bytes of a picture number record and of a plan.
pub const RECORD: usize = 12;
pub const PLAN: usize = 7;

mod library {
    extern "C" {
        pub fn picman_plan(
            count: u64,
            length: u64,
            interval: u64,
            inter: u8,
            hierarchy: u8,
            record: *mut u8,
            record_len: usize,
            plan: *mut u8,
            plan_len: usize,
        ) -> u8;
    }
}

/// What is asked of the planner, beside the record: the running count, the group's length, the key interval (0 for none), the
/// inter slice type (2 for P, 3 for B), and whether the hierarchy is on (0 or 1).
#[derive(Clone, Copy, Debug, PartialEq, Eq)]
pub struct PlanCall {
    pub count: u64,
    pub length: u64,
    pub interval: u64,
    pub inter: u8,
    pub hierarchy: u8,
}

/// Plans one picture on the record that the plan before it left, and writes the record after it and the plan: 0. A refusal
/// (17, 19, 16 or 6, or 18 where the byte for the hierarchy does not fit) writes neither.
#[must_use]
pub fn plan(call: PlanCall, record: &mut [u8; RECORD], plan: &mut [u8; PLAN]) -> u8 {
    let PlanCall { count, length, interval, inter, hierarchy } = call;
    // Each pointer goes with the length of the array that it comes from; the library asks nothing more and keeps neither.
    unsafe {
        library::picman_plan(
            count,
            length,
            interval,
            inter,
            hierarchy,
            record.as_mut_ptr(),
            RECORD,
            plan.as_mut_ptr(),
            PLAN,
        )
    }
}
