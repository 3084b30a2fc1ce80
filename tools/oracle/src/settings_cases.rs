//! Cases for the test of the limits.

use crate::cases::{Group, Operation, Sweep};

pub fn groups() -> Vec<Group> {
    vec![Group {
        name: "check",
        operation: Operation::Check,
        sweeps: [set(), given()].concat(),
    }]
}

/// Every choice of limits absent, one below, exact and one above, for sizes small and large.
fn set() -> Vec<Sweep> {
    let sizes = [
        (1, 1, 1, 4),
        (9, 2, 4, 4),
        (17, 5, 15, 0),
        (300, 200, 7600, 9),
        (u32::MAX - 1, u32::MAX - 1, u64::MAX - 1, 65535),
        (u32::MAX - 1, 1, 1 << 29, 6),
    ];
    let sweep = |(width, height, bytes, offset)| {
        let front = front(width, height, bytes, offset);
        Sweep::between(&front, 4, &[0, 1, 2, 3], &[])
    };
    sizes.map(sweep).to_vec()
}

/// Sizes around the limits that come with the settings, and the largest.
fn given() -> Vec<Sweep> {
    let sides = [1, 16383, 16384, 16385, u32::MAX];
    let most = [8388608, 1 << 30, u64::MAX - 1];
    let bytes = most.map(|n| [n - 1, n, n + 1]).concat();
    let mut sweeps = Vec::new();
    for width in sides {
        for height in sides {
            for &bytes in &bytes {
                sweeps.push(Sweep::over(
                    [&front(width, height, bytes, 12)[..], &[0; 4]].concat(),
                    0,
                    1,
                    vec![1, 2, 3, 4],
                ));
            }
        }
    }
    sweeps
}

fn front(width: u32, height: u32, bytes: u64, offset: u16) -> Vec<u8> {
    let sizes = [width.to_be_bytes(), height.to_be_bytes()].concat();
    let rest = [&bytes.to_be_bytes()[..], &offset.to_be_bytes()].concat();
    [&[0], &sizes[..], &rest].concat()
}
