//! The values that a word holds by itself, without the host: Void, booleans, errors, U32 numbers, and short symbols.
//!
//! The lowest 8 bits of a word are its tag. A larger value is an object: the host keeps it, and its word is a handle.

use crate::soroban_host::*;

pub const FALSE: BoolVal = 0;
pub const TRUE: BoolVal = 1;
pub const VOID: VoidVal = 2;

// The kinds of storage, which the functions of storage take as a number.
pub const TEMPORARY: u64 = 0;
pub const PERSISTENT: u64 = 1;
pub const INSTANCE: u64 = 2;

/// An error of the contract's own, by its code.
pub const fn contract_error(code: u32) -> ErrorVal {
    (code as Val) << 32 | 3
}

pub const fn u32_val(number: u32) -> U32Val {
    (number as Val) << 32 | 4
}

/// Says whether a word is a U32. The host checks the types of what its functions are given, and of nothing else.
pub const fn is_u32(val: Val) -> bool {
    val & 255 == 4
}

/// The number of a word that is known to be a U32.
pub const fn u32_of(val: U32Val) -> u32 {
    (val >> 32) as u32
}

/// The symbol with this text: at most 9 of the characters _, 0 to 9, A to Z, and a to z.
///
/// In a constant the compiler computes the word, and refuses another text.
pub const fn symbol(text: &str) -> SymbolVal {
    let text = text.as_bytes();
    assert!(text.len() <= 9);
    let mut body = 0;
    let mut i = 0;
    while i < text.len() {
        let code = match text[i] {
            b'_' => 1,
            c @ b'0'..=b'9' => c - b'0' + 2,
            c @ b'A'..=b'Z' => c - b'A' + 12,
            c @ b'a'..=b'z' => c - b'a' + 38,
            _ => panic!(),
        };
        body = body << 6 | code as Val;
        i += 1;
    }
    body << 8 | 14
}

/// Makes a vec of words.
pub fn vec_of(words: &[Val]) -> VecVal {
    vec_new_from_linear_memory(u32_val(words.as_ptr() as u32), u32_val(words.len() as u32))
}
