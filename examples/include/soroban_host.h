// The host interface in C: the functions of the host that a contract can import.
//
// tools/host_header.py made this file from crates/host_interface/src/rows.rt. Do not edit it.
//
// A value is a word of 64 bits. For C all types below are the same: their names say which values a function takes and
// returns. The host checks the type of each argument. uint64_t and int64_t stand for plain numbers.
#ifndef SOROBAN_HOST_H
#define SOROBAN_HOST_H

#include <stdint.h>

typedef uint64_t Val; // a value of any type
typedef Val VoidVal;
typedef Val BoolVal;
typedef Val ErrorVal;
typedef Val U32Val;
typedef Val U64Val; // the small form or an object; the same holds for all numbers below, and for symbols
typedef Val I64Val;
typedef Val U128Val;
typedef Val I128Val;
typedef Val TimepointVal;
typedef Val DurationVal;
typedef Val BytesVal;
typedef Val StringVal;
typedef Val SymbolVal;
typedef Val VecVal;
typedef Val MapVal;
typedef Val AddressVal; // the address of an account or a contract
typedef Val MuxedAddressVal; // the address of a muxed account
typedef Val OptionalU32Val; // a U32, or Void if there is none

// The module and the name by which a contract imports the function that is declared behind it.
#define HOST(module, name) __attribute__((import_module(module), import_name(name)))

// Context.
HOST("x", "obj_cmp") int64_t obj_cmp(Val, Val);
HOST("x", "contract_event") VoidVal contract_event(VecVal, Val);
HOST("x", "get_ledger_version") U32Val get_ledger_version(void);
HOST("x", "get_ledger_sequence") U32Val get_ledger_sequence(void);
HOST("x", "get_ledger_timestamp") U64Val get_ledger_timestamp(void);
HOST("x", "get_ledger_network_id") BytesVal get_ledger_network_id(void);
HOST("x", "get_current_contract_address") AddressVal get_current_contract_address(void);
HOST("x", "get_max_live_until_ledger") U32Val get_max_live_until_ledger(void);
HOST("x", "fail_with_error") _Noreturn Val fail_with_error(ErrorVal);

// Integers.
HOST("i", "obj_from_u64") U64Val obj_from_u64(uint64_t);
HOST("i", "obj_to_u64") uint64_t obj_to_u64(U64Val);
HOST("i", "obj_from_i64") I64Val obj_from_i64(int64_t);
HOST("i", "obj_to_i64") int64_t obj_to_i64(I64Val);
HOST("i", "obj_from_u128_pieces") U128Val obj_from_u128_pieces(uint64_t, uint64_t);
HOST("i", "obj_to_u128_hi64") uint64_t obj_to_u128_hi64(U128Val);
HOST("i", "obj_to_u128_lo64") uint64_t obj_to_u128_lo64(U128Val);
HOST("i", "obj_from_i128_pieces") I128Val obj_from_i128_pieces(int64_t, uint64_t);
HOST("i", "obj_to_i128_hi64") int64_t obj_to_i128_hi64(I128Val);
HOST("i", "obj_to_i128_lo64") uint64_t obj_to_i128_lo64(I128Val);
HOST("i", "timepoint_obj_from_u64") TimepointVal timepoint_obj_from_u64(uint64_t);
HOST("i", "timepoint_obj_to_u64") uint64_t timepoint_obj_to_u64(TimepointVal);
HOST("i", "duration_obj_from_u64") DurationVal duration_obj_from_u64(uint64_t);
HOST("i", "duration_obj_to_u64") uint64_t duration_obj_to_u64(DurationVal);

// Maps.
HOST("m", "map_new") MapVal map_new(void);
HOST("m", "map_put") MapVal map_put(MapVal, Val, Val);
HOST("m", "map_get") Val map_get(MapVal, Val);
HOST("m", "map_del") MapVal map_del(MapVal, Val);
HOST("m", "map_len") U32Val map_len(MapVal);
HOST("m", "map_has") BoolVal map_has(MapVal, Val);
HOST("m", "map_key_by_pos") Val map_key_by_pos(MapVal, U32Val);
HOST("m", "map_val_by_pos") Val map_val_by_pos(MapVal, U32Val);
HOST("m", "map_keys") VecVal map_keys(MapVal);
HOST("m", "map_values") VecVal map_values(MapVal);

// Vectors.
HOST("v", "vec_new") VecVal vec_new(void);
HOST("v", "vec_put") VecVal vec_put(VecVal, U32Val, Val);
HOST("v", "vec_get") Val vec_get(VecVal, U32Val);
HOST("v", "vec_del") VecVal vec_del(VecVal, U32Val);
HOST("v", "vec_len") U32Val vec_len(VecVal);
HOST("v", "vec_push_front") VecVal vec_push_front(VecVal, Val);
HOST("v", "vec_pop_front") VecVal vec_pop_front(VecVal);
HOST("v", "vec_push_back") VecVal vec_push_back(VecVal, Val);
HOST("v", "vec_pop_back") VecVal vec_pop_back(VecVal);
HOST("v", "vec_front") Val vec_front(VecVal);
HOST("v", "vec_back") Val vec_back(VecVal);
HOST("v", "vec_insert") VecVal vec_insert(VecVal, U32Val, Val);
HOST("v", "vec_append") VecVal vec_append(VecVal, VecVal);
HOST("v", "vec_slice") VecVal vec_slice(VecVal, U32Val, U32Val);
HOST("v", "vec_first_index_of") OptionalU32Val vec_first_index_of(VecVal, Val);
HOST("v", "vec_last_index_of") OptionalU32Val vec_last_index_of(VecVal, Val);
HOST("v", "vec_new_from_linear_memory") VecVal vec_new_from_linear_memory(U32Val, U32Val);
HOST("v", "vec_unpack_to_linear_memory") VoidVal vec_unpack_to_linear_memory(VecVal, U32Val, U32Val);

// Bytes, strings and symbols.
HOST("b", "serialize_to_bytes") BytesVal serialize_to_bytes(Val);
HOST("b", "deserialize_from_bytes") Val deserialize_from_bytes(BytesVal);
HOST("b", "bytes_new") BytesVal bytes_new(void);
HOST("b", "bytes_put") BytesVal bytes_put(BytesVal, U32Val, U32Val);
HOST("b", "bytes_get") U32Val bytes_get(BytesVal, U32Val);
HOST("b", "bytes_del") BytesVal bytes_del(BytesVal, U32Val);
HOST("b", "bytes_len") U32Val bytes_len(BytesVal);
HOST("b", "bytes_push") BytesVal bytes_push(BytesVal, U32Val);
HOST("b", "bytes_pop") BytesVal bytes_pop(BytesVal);
HOST("b", "bytes_front") U32Val bytes_front(BytesVal);
HOST("b", "bytes_back") U32Val bytes_back(BytesVal);
HOST("b", "bytes_insert") BytesVal bytes_insert(BytesVal, U32Val, U32Val);
HOST("b", "bytes_append") BytesVal bytes_append(BytesVal, BytesVal);
HOST("b", "bytes_slice") BytesVal bytes_slice(BytesVal, U32Val, U32Val);
HOST("b", "bytes_copy_to_linear_memory") VoidVal bytes_copy_to_linear_memory(BytesVal, U32Val, U32Val, U32Val);
HOST("b", "string_copy_to_linear_memory") VoidVal string_copy_to_linear_memory(StringVal, U32Val, U32Val, U32Val);
HOST("b", "symbol_copy_to_linear_memory") VoidVal symbol_copy_to_linear_memory(SymbolVal, U32Val, U32Val, U32Val);
HOST("b", "bytes_copy_from_linear_memory") BytesVal bytes_copy_from_linear_memory(BytesVal, U32Val, U32Val, U32Val);
HOST("b", "bytes_new_from_linear_memory") BytesVal bytes_new_from_linear_memory(U32Val, U32Val);
HOST("b", "string_new_from_linear_memory") StringVal string_new_from_linear_memory(U32Val, U32Val);
HOST("b", "symbol_new_from_linear_memory") SymbolVal symbol_new_from_linear_memory(U32Val, U32Val);
HOST("b", "string_len") U32Val string_len(StringVal);
HOST("b", "symbol_len") U32Val symbol_len(SymbolVal);
HOST("b", "string_to_bytes") BytesVal string_to_bytes(StringVal);
HOST("b", "bytes_to_string") StringVal bytes_to_string(BytesVal);

// Hashes.
HOST("c", "compute_hash_sha256") BytesVal compute_hash_sha256(BytesVal);

// The ledger.
HOST("l", "put_contract_data") VoidVal put_contract_data(Val, Val, uint64_t);
HOST("l", "has_contract_data") BoolVal has_contract_data(Val, uint64_t);
HOST("l", "get_contract_data") Val get_contract_data(Val, uint64_t);
HOST("l", "del_contract_data") VoidVal del_contract_data(Val, uint64_t);
HOST("l", "extend_contract_data_ttl") VoidVal extend_contract_data_ttl(Val, uint64_t, U32Val, U32Val);
HOST("l", "extend_current_contract_instance_and_code_ttl") VoidVal extend_current_contract_instance_and_code_ttl(U32Val, U32Val);
HOST("l", "upload_wasm") BytesVal upload_wasm(BytesVal);
HOST("l", "create_contract") AddressVal create_contract(AddressVal, BytesVal, BytesVal);
HOST("l", "create_contract_with_constructor") AddressVal create_contract_with_constructor(AddressVal, BytesVal, BytesVal, VecVal);
HOST("l", "update_current_contract_wasm") VoidVal update_current_contract_wasm(BytesVal);
HOST("l", "get_contract_id") AddressVal get_contract_id(AddressVal, BytesVal);

// Calls.
HOST("d", "call") Val call(AddressVal, SymbolVal, VecVal);
HOST("d", "try_call") Val try_call(AddressVal, SymbolVal, VecVal);

// Authorisation, and parts of muxed addresses.
HOST("a", "require_auth") VoidVal require_auth(AddressVal);
HOST("a", "require_auth_for_args") VoidVal require_auth_for_args(AddressVal, VecVal);
HOST("a", "get_address_from_muxed_address") AddressVal get_address_from_muxed_address(MuxedAddressVal);
HOST("a", "get_id_from_muxed_address") U64Val get_id_from_muxed_address(MuxedAddressVal);

#endif
