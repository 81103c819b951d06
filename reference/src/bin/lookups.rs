//! A reading of its own, which takes nothing from the library: `lookups`, the member at
//! each position of each set of sixteen, by walking its bits. A line for each upper
//! half of a set: a checksum over the lower halves and, of each set, the positions 0 to
//! 16, both rising. Its modulus is a prime: by a power of two the sets of a line would
//! cancel out.

/// The number of the member at a position, counted from 0 by rising number; 16
/// for none.
fn member_at(set: u32, position: u32) -> u32 {
    let mut passed = 0;
    for member in 0..16 {
        if set & (1 << member) != 0 {
            if passed == position {
                return member;
            }
            passed += 1;
        }
    }
    16
}

fn main() {
    for upper in 0..256 {
        let mut sum: u64 = 0;
        for lower in 0..256 {
            for position in 0..17 {
                let member = member_at(upper * 256 + lower, position);
                sum = (sum * 31 + u64::from(member)) % 2_147_483_647;
            }
        }
        println!("{sum}");
    }
}
