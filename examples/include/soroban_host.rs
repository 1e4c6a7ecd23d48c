//! The host interface in Rust: the functions of the host that a contract can import.
//!
//! tools/host_header.py made this file from crates/host_interface/src/rows.rt. Do not edit it.
//!
//! A value is a word of 64 bits. For Rust all types below are the same: their names say which values a function takes and
//! returns. The host checks the type of each argument. u64 and i64 stand for plain numbers. A function is unsafe if the host
//! writes to the linear memory, at an address that it is given.

pub type Val = u64; // a value of any type
pub type VoidVal = Val;
pub type BoolVal = Val;
pub type ErrorVal = Val;
pub type U32Val = Val;
pub type U64Val = Val; // the small form or an object; the same holds for all numbers below, and for symbols
pub type I64Val = Val;
pub type U128Val = Val;
pub type I128Val = Val;
pub type TimepointVal = Val;
pub type DurationVal = Val;
pub type BytesVal = Val;
pub type StringVal = Val;
pub type SymbolVal = Val;
pub type VecVal = Val;
pub type MapVal = Val;
pub type AddressVal = Val; // the address of an account or a contract
pub type MuxedAddressVal = Val; // the address of a muxed account
pub type OptionalU32Val = Val; // a U32, or Void if there is none

/// Declares a function of the host, imported from the module with this letter.
macro_rules! host {
    ($letter:literal unsafe fn $name:ident($($argument:ident: $kind:ty),*) -> $result:ty) => {
        #[inline(always)]
        pub unsafe fn $name($($argument: $kind),*) -> $result {
            #[link(wasm_import_module = $letter)]
            extern "C" {
                fn $name($($argument: $kind),*) -> $result;
            }
            $name($($argument),*)
        }
    };
    // For WebAssembly, an import without a return has a result like all others.
    ($letter:literal fn $name:ident($argument:ident: $kind:ty) -> !) => {
        #[inline(always)]
        pub fn $name($argument: $kind) -> ! {
            #[link(wasm_import_module = $letter)]
            extern "C" {
                fn $name($argument: $kind) -> Val;
            }
            unsafe { $name($argument) };
            core::arch::wasm32::unreachable()
        }
    };
    ($letter:literal fn $name:ident($($argument:ident: $kind:ty),*) -> $result:ty) => {
        #[inline(always)]
        pub fn $name($($argument: $kind),*) -> $result {
            #[link(wasm_import_module = $letter)]
            extern "C" {
                fn $name($($argument: $kind),*) -> $result;
            }
            unsafe { $name($($argument),*) }
        }
    };
}

// Context.
host!("x" fn obj_cmp(a: Val, b: Val) -> i64);
host!("x" fn contract_event(a: VecVal, b: Val) -> VoidVal);
host!("x" fn get_ledger_version() -> U32Val);
host!("x" fn get_ledger_sequence() -> U32Val);
host!("x" fn get_ledger_timestamp() -> U64Val);
host!("x" fn get_ledger_network_id() -> BytesVal);
host!("x" fn get_current_contract_address() -> AddressVal);
host!("x" fn get_max_live_until_ledger() -> U32Val);
host!("x" fn fail_with_error(a: ErrorVal) -> !);

// Integers.
host!("i" fn obj_from_u64(a: u64) -> U64Val);
host!("i" fn obj_to_u64(a: U64Val) -> u64);
host!("i" fn obj_from_i64(a: i64) -> I64Val);
host!("i" fn obj_to_i64(a: I64Val) -> i64);
host!("i" fn obj_from_u128_pieces(a: u64, b: u64) -> U128Val);
host!("i" fn obj_to_u128_hi64(a: U128Val) -> u64);
host!("i" fn obj_to_u128_lo64(a: U128Val) -> u64);
host!("i" fn obj_from_i128_pieces(a: i64, b: u64) -> I128Val);
host!("i" fn obj_to_i128_hi64(a: I128Val) -> i64);
host!("i" fn obj_to_i128_lo64(a: I128Val) -> u64);
host!("i" fn timepoint_obj_from_u64(a: u64) -> TimepointVal);
host!("i" fn timepoint_obj_to_u64(a: TimepointVal) -> u64);
host!("i" fn duration_obj_from_u64(a: u64) -> DurationVal);
host!("i" fn duration_obj_to_u64(a: DurationVal) -> u64);

// Maps.
host!("m" fn map_new() -> MapVal);
host!("m" fn map_put(a: MapVal, b: Val, c: Val) -> MapVal);
host!("m" fn map_get(a: MapVal, b: Val) -> Val);
host!("m" fn map_del(a: MapVal, b: Val) -> MapVal);
host!("m" fn map_len(a: MapVal) -> U32Val);
host!("m" fn map_has(a: MapVal, b: Val) -> BoolVal);
host!("m" fn map_key_by_pos(a: MapVal, b: U32Val) -> Val);
host!("m" fn map_val_by_pos(a: MapVal, b: U32Val) -> Val);
host!("m" fn map_keys(a: MapVal) -> VecVal);
host!("m" fn map_values(a: MapVal) -> VecVal);

// Vectors.
host!("v" fn vec_new() -> VecVal);
host!("v" fn vec_put(a: VecVal, b: U32Val, c: Val) -> VecVal);
host!("v" fn vec_get(a: VecVal, b: U32Val) -> Val);
host!("v" fn vec_del(a: VecVal, b: U32Val) -> VecVal);
host!("v" fn vec_len(a: VecVal) -> U32Val);
host!("v" fn vec_push_front(a: VecVal, b: Val) -> VecVal);
host!("v" fn vec_pop_front(a: VecVal) -> VecVal);
host!("v" fn vec_push_back(a: VecVal, b: Val) -> VecVal);
host!("v" fn vec_pop_back(a: VecVal) -> VecVal);
host!("v" fn vec_front(a: VecVal) -> Val);
host!("v" fn vec_back(a: VecVal) -> Val);
host!("v" fn vec_insert(a: VecVal, b: U32Val, c: Val) -> VecVal);
host!("v" fn vec_append(a: VecVal, b: VecVal) -> VecVal);
host!("v" fn vec_slice(a: VecVal, b: U32Val, c: U32Val) -> VecVal);
host!("v" fn vec_first_index_of(a: VecVal, b: Val) -> OptionalU32Val);
host!("v" fn vec_last_index_of(a: VecVal, b: Val) -> OptionalU32Val);
host!("v" fn vec_new_from_linear_memory(a: U32Val, b: U32Val) -> VecVal);
host!("v" unsafe fn vec_unpack_to_linear_memory(a: VecVal, b: U32Val, c: U32Val) -> VoidVal);

// Bytes, strings and symbols.
host!("b" fn serialize_to_bytes(a: Val) -> BytesVal);
host!("b" fn deserialize_from_bytes(a: BytesVal) -> Val);
host!("b" fn bytes_new() -> BytesVal);
host!("b" fn bytes_put(a: BytesVal, b: U32Val, c: U32Val) -> BytesVal);
host!("b" fn bytes_get(a: BytesVal, b: U32Val) -> U32Val);
host!("b" fn bytes_del(a: BytesVal, b: U32Val) -> BytesVal);
host!("b" fn bytes_len(a: BytesVal) -> U32Val);
host!("b" fn bytes_push(a: BytesVal, b: U32Val) -> BytesVal);
host!("b" fn bytes_pop(a: BytesVal) -> BytesVal);
host!("b" fn bytes_front(a: BytesVal) -> U32Val);
host!("b" fn bytes_back(a: BytesVal) -> U32Val);
host!("b" fn bytes_insert(a: BytesVal, b: U32Val, c: U32Val) -> BytesVal);
host!("b" fn bytes_append(a: BytesVal, b: BytesVal) -> BytesVal);
host!("b" fn bytes_slice(a: BytesVal, b: U32Val, c: U32Val) -> BytesVal);
host!("b" unsafe fn bytes_copy_to_linear_memory(a: BytesVal, b: U32Val, c: U32Val, d: U32Val) -> VoidVal);
host!("b" unsafe fn string_copy_to_linear_memory(a: StringVal, b: U32Val, c: U32Val, d: U32Val) -> VoidVal);
host!("b" unsafe fn symbol_copy_to_linear_memory(a: SymbolVal, b: U32Val, c: U32Val, d: U32Val) -> VoidVal);
host!("b" fn bytes_copy_from_linear_memory(a: BytesVal, b: U32Val, c: U32Val, d: U32Val) -> BytesVal);
host!("b" fn bytes_new_from_linear_memory(a: U32Val, b: U32Val) -> BytesVal);
host!("b" fn string_new_from_linear_memory(a: U32Val, b: U32Val) -> StringVal);
host!("b" fn symbol_new_from_linear_memory(a: U32Val, b: U32Val) -> SymbolVal);
host!("b" fn string_len(a: StringVal) -> U32Val);
host!("b" fn symbol_len(a: SymbolVal) -> U32Val);
host!("b" fn string_to_bytes(a: StringVal) -> BytesVal);
host!("b" fn bytes_to_string(a: BytesVal) -> StringVal);

// Hashes.
host!("c" fn compute_hash_sha256(a: BytesVal) -> BytesVal);

// The ledger.
host!("l" fn put_contract_data(a: Val, b: Val, c: u64) -> VoidVal);
host!("l" fn has_contract_data(a: Val, b: u64) -> BoolVal);
host!("l" fn get_contract_data(a: Val, b: u64) -> Val);
host!("l" fn del_contract_data(a: Val, b: u64) -> VoidVal);
host!("l" fn extend_contract_data_ttl(a: Val, b: u64, c: U32Val, d: U32Val) -> VoidVal);
host!("l" fn extend_current_contract_instance_and_code_ttl(a: U32Val, b: U32Val) -> VoidVal);
host!("l" fn upload_wasm(a: BytesVal) -> BytesVal);
host!("l" fn create_contract(a: AddressVal, b: BytesVal, c: BytesVal) -> AddressVal);
host!("l" fn create_contract_with_constructor(a: AddressVal, b: BytesVal, c: BytesVal, d: VecVal) -> AddressVal);
host!("l" fn update_current_contract_wasm(a: BytesVal) -> VoidVal);
host!("l" fn get_contract_id(a: AddressVal, b: BytesVal) -> AddressVal);

// Calls.
host!("d" fn call(a: AddressVal, b: SymbolVal, c: VecVal) -> Val);
host!("d" fn try_call(a: AddressVal, b: SymbolVal, c: VecVal) -> Val);

// Authorisation, and parts of muxed addresses.
host!("a" fn require_auth(a: AddressVal) -> VoidVal);
host!("a" fn require_auth_for_args(a: AddressVal, b: VecVal) -> VoidVal);
host!("a" fn get_address_from_muxed_address(a: MuxedAddressVal) -> AddressVal);
host!("a" fn get_id_from_muxed_address(a: MuxedAddressVal) -> U64Val);
