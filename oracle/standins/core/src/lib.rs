//! Stand-in: only what the given scoring files name.

pub mod score {
    use std::ops::Sub;

    #[derive(Clone, Copy, Debug, PartialEq, Eq)]
    pub struct HardSoftScore {
        hard: i64,
        soft: i64,
    }

    impl HardSoftScore {
        pub const ZERO: Self = Self::of(0, 0);

        pub const fn of(hard: i64, soft: i64) -> Self {
            Self { hard, soft }
        }

        pub const fn hard(self) -> i64 {
            self.hard
        }

        pub const fn soft(self) -> i64 {
            self.soft
        }
    }

    impl Sub for HardSoftScore {
        type Output = Self;

        fn sub(self, before: Self) -> Self {
            Self::of(self.hard - before.hard, self.soft - before.soft)
        }
    }
}

#[derive(Clone, Debug, PartialEq, Eq)]
pub struct ConstraintRef(pub &'static str);
