//! The recordings of the sixth machine, for `kpalumere check`.

/// A recording: the name of its file, and its text.
pub struct Recorded {
    pub name: &'static str,
    pub text: &'static str,
}

/// As it was filed, each program with the other's words; and as it should be. The calls are the same.
pub static RECORDINGS: [Recorded; 2] = [
    Recorded {
        name: "sixth-as-filed.check",
        text: include_str!("../../samples/sixth-as-filed.check"),
    },
    Recorded {
        name: "sixth-as-it-should-be.check",
        text: include_str!("../../samples/sixth-as-it-should-be.check"),
    },
];
