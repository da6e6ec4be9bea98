"""The structs and the calls of include/pef.h, for ctypes.

tools/declarations writes this file from the header, which says what all of it means. Change that, and run it again.
"""
from __future__ import annotations

import ctypes
from typing import Any, Dict, List, Tuple

#: What pef.h calls a pef_size, of 64 bits on every machine. A pointer has as many in a struct, the last of which count for nothing if it is
#: shorter.
_Size = ctypes.c_uint64
_POINTER_END = [("", ctypes.c_uint32)] if ctypes.sizeof(ctypes.c_void_p) == 4 else []
#: Mac Roman has a character for each byte, so names lose nothing.
ENCODING = "mac_roman"

OK = 0
MAX_FRAGMENTS = 256
MAX_CONNECTIONS = 0x10000
NO_ENTRY = -1
ABSOLUTE = -2
REEXPORT = -3
LIBRARY_WEAK = 64
LIBRARY_INIT_BEFORE = 128
NOWHERE = 0
ARCHITECTURE_POWERPC = 0x70777063
ARCHITECTURE_68K = 0x6d36386b
FRAGMENT_TABLE_TYPE = 0x63667267
STUB_NUMBERS = 1
STUB_MEMORY = 2


class _Bytes(ctypes.Structure):
    _fields_ = [
        ("at", ctypes.c_void_p),
        *_POINTER_END,
        ("length", _Size),
    ]

    def value(self) -> bytes:
        return ctypes.string_at(self.at, self.length)

    def text(self) -> str:
        return self.value().decode(ENCODING)


class _Listing(ctypes.Structure):
    _fields_ = [
        ("handle", ctypes.c_void_p),
        *_POINTER_END,
        ("is_open", ctypes.c_bool),
        ("_at_9", ctypes.c_uint8 * 7),
    ]


class _Place(ctypes.Structure):
    _fields_ = [
        ("part", ctypes.c_uint32),
        ("_at_4", ctypes.c_uint8 * 4),
        ("row", _Size),
        ("field", _Size),
        ("offset", _Size),
    ]


class _Finding(ctypes.Structure):
    _fields_ = [
        ("place", _Place),
        ("detail", ctypes.c_uint64),
        ("number", ctypes.c_uint32),
        ("is_error", ctypes.c_bool),
        ("detail_kind", ctypes.c_uint8),
        ("_at_46", ctypes.c_uint8 * 2),
    ]


class _Report(ctypes.Structure):
    _fields_ = [
        ("handle", ctypes.c_void_p),
        *_POINTER_END,
        ("is_open", ctypes.c_bool),
        ("_at_9", ctypes.c_uint8 * 7),
    ]


class _FoundContainer(ctypes.Structure):
    _fields_ = [
        ("offset", _Size),
        ("length", _Size),
        ("number", ctypes.c_uint64),
        ("skipped", ctypes.c_uint64),
        ("budget", ctypes.c_uint64),
        ("program_bytes", ctypes.c_uint64),
        ("steps", ctypes.c_uint64),
        ("packed_bytes", ctypes.c_uint64),
        ("words", ctypes.c_uint64),
    ]


class _RowRange(ctypes.Structure):
    _fields_ = [
        ("offset", _Size),
        ("part", ctypes.c_uint32),
        ("from_", ctypes.c_uint32),
        ("count", ctypes.c_uint32),
        ("_at_20", ctypes.c_uint8 * 4),
    ]


class _Header(ctypes.Structure):
    _fields_ = [
        ("date_time_stamp", ctypes.c_uint32),
        ("old_def_version", ctypes.c_uint32),
        ("old_imp_version", ctypes.c_uint32),
        ("current_version", ctypes.c_uint32),
        ("section_count", ctypes.c_uint16),
        ("instantiated_section_count", ctypes.c_uint16),
        ("architecture", ctypes.c_uint32),
    ]


class _Section(ctypes.Structure):
    _fields_ = [
        ("default_address", ctypes.c_uint32),
        ("total_size", ctypes.c_uint32),
        ("unpacked_size", ctypes.c_uint32),
        ("packed_size", ctypes.c_uint32),
        ("container_offset", ctypes.c_uint32),
        ("kind", ctypes.c_uint8),
        ("share", ctypes.c_uint8),
        ("alignment", ctypes.c_uint8),
        ("_at_23", ctypes.c_uint8 * 1),
    ]


class _Loader(ctypes.Structure):
    _fields_ = [
        ("main_section", ctypes.c_int32),
        ("main_offset", ctypes.c_uint32),
        ("init_section", ctypes.c_int32),
        ("init_offset", ctypes.c_uint32),
        ("term_section", ctypes.c_int32),
        ("term_offset", ctypes.c_uint32),
        ("library_count", ctypes.c_uint32),
        ("import_count", ctypes.c_uint32),
        ("relocation_count", ctypes.c_uint32),
        ("export_count", ctypes.c_uint32),
    ]


class _Library(ctypes.Structure):
    _fields_ = [
        ("name", _Bytes),
        ("current_version", ctypes.c_uint32),
        ("old_imp_version", ctypes.c_uint32),
        ("import_count", ctypes.c_uint32),
        ("first_import", ctypes.c_uint32),
        ("options", ctypes.c_uint8),
        ("_at_33", ctypes.c_uint8 * 7),
    ]


class _Import(ctypes.Structure):
    _fields_ = [
        ("name", _Bytes),
        ("library", _Size),
        ("symbol_class", ctypes.c_uint8),
        ("weak", ctypes.c_bool),
        ("_at_26", ctypes.c_uint8 * 6),
    ]


class _Relocation(ctypes.Structure):
    _fields_ = [
        ("instructions", _Bytes),
        ("section", ctypes.c_uint32),
        ("_at_20", ctypes.c_uint8 * 4),
    ]


class _Fixup(ctypes.Structure):
    _fields_ = [
        ("offset", ctypes.c_uint64),
        ("number", ctypes.c_uint64),
        ("kind", ctypes.c_uint32),
        ("_at_20", ctypes.c_uint8 * 4),
    ]


class _Export(ctypes.Structure):
    _fields_ = [
        ("name", _Bytes),
        ("section", ctypes.c_int32),
        ("value", ctypes.c_uint32),
        ("symbol_class", ctypes.c_uint8),
        ("_at_25", ctypes.c_uint8 * 7),
    ]


class _Part(ctypes.Structure):
    _fields_ = [
        ("bytes", _Bytes),
        ("offset", _Size),
        ("error_offset", _Size),
        ("error", ctypes.c_uint32),
        ("_at_36", ctypes.c_uint8 * 4),
    ]


class _Finder(ctypes.Structure):
    _fields_ = [
        ("error_offset", _Size),
        ("error", ctypes.c_uint32),
        ("file_type", ctypes.c_uint32),
        ("creator", ctypes.c_uint32),
        ("flags", ctypes.c_uint16),
        ("vertical", ctypes.c_int16),
        ("horizontal", ctypes.c_int16),
        ("window", ctypes.c_uint16),
        ("_at_28", ctypes.c_uint8 * 4),
    ]


class _Forks(ctypes.Structure):
    _fields_ = [
        ("data_fork", _Part),
        ("resource_fork", _Part),
        ("name", _Part),
        ("comment", _Part),
        ("finder", _Finder),
        ("error_offset", _Size),
        ("error", ctypes.c_uint32),
        ("kind", ctypes.c_uint32),
    ]


class _ResourceMap(ctypes.Structure):
    _fields_ = [
        ("error_offset", _Size),
        ("error", ctypes.c_uint32),
        ("data_offset", ctypes.c_uint32),
        ("map_offset", ctypes.c_uint32),
        ("data_length", ctypes.c_uint32),
        ("map_length", ctypes.c_uint32),
        ("attributes", ctypes.c_uint16),
        ("type_count", ctypes.c_uint16),
    ]


class _Resource(ctypes.Structure):
    _fields_ = [
        ("name", _Bytes),
        ("bytes", _Bytes),
        ("offset", _Size),
        ("error_offset", _Size),
        ("name_error_offset", _Size),
        ("error", ctypes.c_uint32),
        ("name_error", ctypes.c_uint32),
        ("type", ctypes.c_uint32),
        ("id", ctypes.c_int16),
        ("type_row", ctypes.c_uint16),
        ("row", ctypes.c_uint16),
        ("attributes", ctypes.c_uint8),
        ("_at_75", ctypes.c_uint8 * 5),
    ]


class _Member(ctypes.Structure):
    _fields_ = [
        ("name", _Bytes),
        ("container", _Bytes),
        ("place", _Size),
        ("error_offset", _Size),
        ("name_error_offset", _Size),
        ("container_error_offset", _Size),
        ("error", ctypes.c_uint32),
        ("name_error", ctypes.c_uint32),
        ("container_error", ctypes.c_uint32),
        ("architecture", ctypes.c_uint32),
        ("current_version", ctypes.c_uint32),
        ("old_def_version", ctypes.c_uint32),
        ("stack_size", ctypes.c_uint32),
        ("offset", ctypes.c_uint32),
        ("length", ctypes.c_uint32),
        ("space_id", ctypes.c_uint32),
        ("directory_or_flags", ctypes.c_uint16),
        ("fork_instance", ctypes.c_uint16),
        ("extension_count", ctypes.c_uint16),
        ("size", ctypes.c_uint16),
        ("update_level", ctypes.c_uint8),
        ("usage", ctypes.c_uint8),
        ("locator", ctypes.c_uint8),
        ("_at_115", ctypes.c_uint8 * 5),
    ]


class _Context(ctypes.Structure):
    _fields_ = [
        ("handle", ctypes.c_void_p),
        *_POINTER_END,
        ("is_open", ctypes.c_bool),
        ("_at_9", ctypes.c_uint8 * 7),
    ]


class _Options(ctypes.Structure):
    _fields_ = [
        ("size", ctypes.c_uint32),
        ("limit", ctypes.c_uint32),
        ("granule", ctypes.c_uint32),
        ("connections", ctypes.c_uint32),
        ("steps", ctypes.c_uint64),
        ("bytes", ctypes.c_uint64),
    ]


class _Names(ctypes.Structure):
    _fields_ = [
        ("fragment", _Bytes),
        ("library", _Bytes),
        ("symbol", _Bytes),
    ]


class _Missing(ctypes.Structure):
    _fields_ = [
        ("name", _Bytes),
        ("fragment", _Size),
        ("current_version", ctypes.c_uint32),
        ("old_imp_version", ctypes.c_uint32),
        ("found_version", ctypes.c_uint32),
        ("found_old_def_version", ctypes.c_uint32),
        ("is_weak", ctypes.c_bool),
        ("is_found", ctypes.c_bool),
        ("_at_42", ctypes.c_uint8 * 6),
    ]


class _Lacking(ctypes.Structure):
    _fields_ = [
        ("name", _Bytes),
        ("is_weak", ctypes.c_bool),
        ("_at_17", ctypes.c_uint8 * 7),
    ]


class _StubOptions(ctypes.Structure):
    _fields_ = [
        ("size", ctypes.c_uint32),
        ("values", ctypes.c_uint32),
        ("first", ctypes.c_uint32),
        ("step", ctypes.c_uint32),
        ("word", ctypes.c_uint32),
        ("zeros", ctypes.c_uint32),
    ]


class _NewSection(ctypes.Structure):
    _fields_ = [
        ("fragment", _Size),
        ("section", ctypes.c_uint32),
        ("kind", ctypes.c_uint8),
        ("share", ctypes.c_uint8),
        ("_at_14", ctypes.c_uint8 * 2),
        ("size", ctypes.c_uint64),
        ("alignment", ctypes.c_uint64),
    ]


class _FragmentSection(ctypes.Structure):
    _fields_ = [
        ("address", ctypes.c_uint32),
        ("_at_4", ctypes.c_uint8 * 4),
        ("size", _Size),
        ("kind", ctypes.c_uint8),
        ("share", ctypes.c_uint8),
        ("_at_18", ctypes.c_uint8 * 6),
    ]


class _Entries(ctypes.Structure):
    _fields_ = [
        ("init", ctypes.c_uint32),
        ("main", ctypes.c_uint32),
        ("term", ctypes.c_uint32),
        ("has_init", ctypes.c_bool),
        ("has_main", ctypes.c_bool),
        ("has_term", ctypes.c_bool),
        ("_at_15", ctypes.c_uint8 * 1),
    ]


class _Target(ctypes.Structure):
    _fields_ = [
        ("kind", ctypes.c_uint32),
        ("_at_4", ctypes.c_uint8 * 4),
        ("fragment", _Size),
        ("section", ctypes.c_uint32),
        ("offset", ctypes.c_uint32),
        ("address", ctypes.c_uint32),
        ("_at_28", ctypes.c_uint8 * 4),
    ]


class _FragmentExport(ctypes.Structure):
    _fields_ = [
        ("name", _Bytes),
        ("number", _Size),
        ("target", _Target),
        ("import_number", _Size),
        ("symbol_class", ctypes.c_uint8),
        ("is_reexport", ctypes.c_bool),
        ("_at_66", ctypes.c_uint8 * 6),
    ]


class _Location(ctypes.Structure):
    _fields_ = [
        ("fragment", _Size),
        ("section", _Size),
        ("connection", ctypes.c_uint32),
        ("offset", ctypes.c_uint32),
        ("has_nearest", ctypes.c_bool),
        ("_at_25", ctypes.c_uint8 * 7),
        ("nearest", _FragmentExport),
    ]


#: What each call returns and takes.
_CALLS: Dict[str, Tuple[Any, List[Any]]] = {
    "pef_link": (ctypes.c_uint32, [ctypes.c_char_p, ctypes.c_size_t, ctypes.c_void_p, ctypes.c_size_t, ctypes.POINTER(_Size), ctypes.POINTER(_Size)]),
    "pef_distances": (ctypes.c_uint32, [ctypes.c_char_p, ctypes.c_size_t, ctypes.c_void_p, ctypes.c_size_t, ctypes.POINTER(_Size), ctypes.POINTER(_Size)]),
    "pef_list": (ctypes.c_uint32, [ctypes.c_char_p, ctypes.c_size_t, ctypes.c_void_p, ctypes.c_size_t, ctypes.POINTER(_Size)]),
    "pef_list_open": (ctypes.c_uint32, [ctypes.POINTER(_Listing), ctypes.c_char_p, ctypes.c_size_t]),
    "pef_list_next": (ctypes.c_uint32, [ctypes.POINTER(_Listing), ctypes.c_void_p, ctypes.c_size_t, ctypes.POINTER(_Size)]),
    "pef_list_free": (None, [ctypes.POINTER(_Listing)]),
    "pef_name": (ctypes.c_uint32, [ctypes.c_uint32, ctypes.POINTER(_Bytes)]),
    "pef_help": (ctypes.c_uint32, [ctypes.c_uint32, ctypes.POINTER(_Bytes)]),
    "pef_container_place": (ctypes.c_uint32, [ctypes.c_char_p, ctypes.c_size_t, ctypes.POINTER(_Place)]),
    "pef_script_place": (ctypes.c_uint32, [ctypes.c_char_p, ctypes.c_size_t, ctypes.POINTER(_Place), ctypes.POINTER(_Size)]),
    "pef_findings": (ctypes.c_uint32, [ctypes.c_char_p, ctypes.c_size_t, ctypes.c_size_t, ctypes.POINTER(_Finding), ctypes.c_size_t, ctypes.POINTER(_Size)]),
    "pef_more_notes": (ctypes.c_uint32, [ctypes.c_char_p, ctypes.c_size_t, ctypes.c_size_t, ctypes.POINTER(_Finding), ctypes.c_size_t, ctypes.POINTER(_Size)]),
    "pef_report_open": (ctypes.c_uint32, [ctypes.POINTER(_Report), ctypes.c_char_p, ctypes.c_size_t, ctypes.c_char_p, ctypes.c_size_t]),
    "pef_report_open_container": (ctypes.c_uint32, [ctypes.POINTER(_Report), ctypes.c_char_p, ctypes.c_size_t]),
    "pef_first_container": (ctypes.c_uint32, [ctypes.c_char_p, ctypes.c_size_t, ctypes.POINTER(_FoundContainer)]),
    "pef_next_container": (ctypes.c_uint32, [ctypes.c_char_p, ctypes.c_size_t, ctypes.POINTER(_FoundContainer)]),
    "pef_report_open_head": (ctypes.c_uint32, [ctypes.POINTER(_Report), ctypes.c_char_p, ctypes.c_size_t, ctypes.c_char_p, ctypes.c_size_t]),
    "pef_report_open_found": (ctypes.c_uint32, [ctypes.POINTER(_Report), ctypes.c_char_p, ctypes.c_size_t, ctypes.POINTER(_FoundContainer)]),
    "pef_report_open_end": (ctypes.c_uint32, [ctypes.POINTER(_Report), ctypes.c_char_p, ctypes.c_size_t, ctypes.POINTER(_FoundContainer)]),
    "pef_report_open_excerpt": (ctypes.c_uint32, [ctypes.POINTER(_Report), ctypes.c_char_p, ctypes.c_size_t, ctypes.POINTER(_FoundContainer), ctypes.c_uint32]),
    "pef_report_open_rows": (ctypes.c_uint32, [ctypes.POINTER(_Report), ctypes.c_char_p, ctypes.c_size_t, ctypes.POINTER(_RowRange)]),
    "pef_report_next": (ctypes.c_uint32, [ctypes.POINTER(_Report), ctypes.c_void_p, ctypes.c_size_t, ctypes.POINTER(_Size)]),
    "pef_report_free": (None, [ctypes.POINTER(_Report)]),
    "pef_header": (ctypes.c_uint32, [ctypes.c_char_p, ctypes.c_size_t, ctypes.POINTER(_Header)]),
    "pef_section": (ctypes.c_uint32, [ctypes.c_char_p, ctypes.c_size_t, ctypes.c_size_t, ctypes.POINTER(_Section), ctypes.POINTER(_Bytes)]),
    "pef_section_name": (ctypes.c_uint32, [ctypes.c_char_p, ctypes.c_size_t, ctypes.c_size_t, ctypes.POINTER(_Bytes)]),
    "pef_expand": (ctypes.c_uint32, [ctypes.c_char_p, ctypes.c_size_t, ctypes.c_void_p, ctypes.c_size_t]),
    "pef_loader": (ctypes.c_uint32, [ctypes.c_char_p, ctypes.c_size_t, ctypes.POINTER(_Loader)]),
    "pef_libraries": (ctypes.c_uint32, [ctypes.c_char_p, ctypes.c_size_t, ctypes.c_size_t, ctypes.POINTER(_Library), ctypes.c_size_t, ctypes.POINTER(_Size)]),
    "pef_imports": (ctypes.c_uint32, [ctypes.c_char_p, ctypes.c_size_t, ctypes.c_size_t, ctypes.POINTER(_Import), ctypes.c_size_t, ctypes.POINTER(_Size)]),
    "pef_relocations": (ctypes.c_uint32, [ctypes.c_char_p, ctypes.c_size_t, ctypes.c_size_t, ctypes.POINTER(_Relocation), ctypes.c_size_t, ctypes.POINTER(_Size)]),
    "pef_exports": (ctypes.c_uint32, [ctypes.c_char_p, ctypes.c_size_t, ctypes.c_size_t, ctypes.POINTER(_Export), ctypes.c_size_t, ctypes.POINTER(_Size)]),
    "pef_fixups": (ctypes.c_uint32, [ctypes.c_char_p, ctypes.c_size_t, ctypes.c_size_t, ctypes.c_size_t, ctypes.POINTER(_Fixup), ctypes.c_size_t, ctypes.POINTER(_Size)]),
    "pef_export_named": (ctypes.c_uint32, [ctypes.c_char_p, ctypes.c_size_t, ctypes.c_char_p, ctypes.c_size_t, ctypes.POINTER(_Size), ctypes.POINTER(_Export)]),
    "pef_import_named": (ctypes.c_uint32, [ctypes.c_char_p, ctypes.c_size_t, ctypes.c_char_p, ctypes.c_size_t, ctypes.POINTER(_Size), ctypes.POINTER(_Import)]),
    "pef_partial_header": (ctypes.c_uint32, [ctypes.c_char_p, ctypes.c_size_t, ctypes.POINTER(_Header)]),
    "pef_partial_section": (ctypes.c_uint32, [ctypes.c_char_p, ctypes.c_size_t, ctypes.c_size_t, ctypes.POINTER(_Section), ctypes.POINTER(_Bytes)]),
    "pef_partial_section_name": (ctypes.c_uint32, [ctypes.c_char_p, ctypes.c_size_t, ctypes.c_size_t, ctypes.POINTER(_Bytes)]),
    "pef_partial_loader": (ctypes.c_uint32, [ctypes.c_char_p, ctypes.c_size_t, ctypes.POINTER(_Loader)]),
    "pef_partial_libraries": (ctypes.c_uint32, [ctypes.c_char_p, ctypes.c_size_t, ctypes.c_size_t, ctypes.POINTER(_Library), ctypes.c_size_t, ctypes.POINTER(_Size)]),
    "pef_partial_imports": (ctypes.c_uint32, [ctypes.c_char_p, ctypes.c_size_t, ctypes.c_size_t, ctypes.POINTER(_Import), ctypes.c_size_t, ctypes.POINTER(_Size)]),
    "pef_partial_relocations": (ctypes.c_uint32, [ctypes.c_char_p, ctypes.c_size_t, ctypes.c_size_t, ctypes.POINTER(_Relocation), ctypes.c_size_t, ctypes.POINTER(_Size)]),
    "pef_partial_exports": (ctypes.c_uint32, [ctypes.c_char_p, ctypes.c_size_t, ctypes.c_size_t, ctypes.POINTER(_Export), ctypes.c_size_t, ctypes.POINTER(_Size)]),
    "pef_partial_fixups": (ctypes.c_uint32, [ctypes.c_char_p, ctypes.c_size_t, ctypes.c_size_t, ctypes.c_size_t, ctypes.POINTER(_Fixup), ctypes.c_size_t, ctypes.POINTER(_Size)]),
    "pef_file_kind": (ctypes.c_uint32, [ctypes.c_char_p, ctypes.c_size_t]),
    "pef_forks": (ctypes.c_uint32, [ctypes.c_char_p, ctypes.c_size_t, ctypes.POINTER(_Forks)]),
    "pef_resource_map": (ctypes.c_uint32, [ctypes.c_char_p, ctypes.c_size_t, ctypes.POINTER(_ResourceMap)]),
    "pef_resources": (ctypes.c_uint32, [ctypes.c_char_p, ctypes.c_size_t, ctypes.c_size_t, ctypes.POINTER(_Resource), ctypes.c_size_t, ctypes.POINTER(_Size)]),
    "pef_find_resource": (ctypes.c_uint32, [ctypes.c_char_p, ctypes.c_size_t, ctypes.c_uint32, ctypes.c_int16, ctypes.POINTER(_Resource)]),
    "pef_members": (ctypes.c_uint32, [ctypes.c_char_p, ctypes.c_size_t, ctypes.c_char_p, ctypes.c_size_t, ctypes.c_size_t, ctypes.POINTER(_Member), ctypes.c_size_t, ctypes.POINTER(_Size)]),
    "pef_find_containers": (ctypes.c_uint32, [ctypes.c_char_p, ctypes.c_size_t, ctypes.c_size_t, ctypes.POINTER(_Size), ctypes.c_size_t, ctypes.POINTER(_Size)]),
    "pef_file_container": (ctypes.c_uint32, [ctypes.c_char_p, ctypes.c_size_t, ctypes.c_char_p, ctypes.c_size_t, ctypes.POINTER(_Bytes)]),
    "pef_fork_container": (ctypes.c_uint32, [ctypes.c_char_p, ctypes.c_size_t, ctypes.c_char_p, ctypes.c_size_t, ctypes.c_char_p, ctypes.c_size_t, ctypes.POINTER(_Bytes)]),
    "pef_numbered_container": (ctypes.c_uint32, [ctypes.c_char_p, ctypes.c_size_t, ctypes.c_size_t, ctypes.POINTER(_Bytes)]),
    "pef_open": (ctypes.c_uint32, [ctypes.POINTER(_Context), ctypes.c_uint32]),
    "pef_open_with": (ctypes.c_uint32, [ctypes.POINTER(_Context), ctypes.POINTER(_Options)]),
    "pef_version": (ctypes.c_uint32, []),
    "pef_free": (None, [ctypes.POINTER(_Context)]),
    "pef_add": (ctypes.c_uint32, [ctypes.POINTER(_Context), ctypes.c_char_p, ctypes.c_size_t, ctypes.c_char_p, ctypes.c_size_t]),
    "pef_add_new": (ctypes.c_uint32, [ctypes.POINTER(_Context), ctypes.c_char_p, ctypes.c_size_t, ctypes.c_char_p, ctypes.c_size_t]),
    "pef_remove": (ctypes.c_uint32, [ctypes.POINTER(_Context), ctypes.c_char_p, ctypes.c_size_t]),
    "pef_reserve": (ctypes.c_uint32, [ctypes.POINTER(_Context), ctypes.c_uint32, ctypes.c_uint32]),
    "pef_unreserve": (ctypes.c_uint32, [ctypes.POINTER(_Context), ctypes.c_uint32, ctypes.c_uint32]),
    "pef_missing": (ctypes.c_uint32, [ctypes.POINTER(_Context), ctypes.c_char_p, ctypes.c_size_t, ctypes.c_size_t, ctypes.POINTER(_Missing), ctypes.c_size_t, ctypes.POINTER(_Size), ctypes.POINTER(_Names)]),
    "pef_missing_with_place": (ctypes.c_uint32, [ctypes.POINTER(_Context), ctypes.c_char_p, ctypes.c_size_t, ctypes.c_size_t, ctypes.POINTER(_Missing), ctypes.c_size_t, ctypes.POINTER(_Size), ctypes.POINTER(_Names), ctypes.POINTER(_Place)]),
    "pef_lacking": (ctypes.c_uint32, [ctypes.POINTER(_Context), ctypes.c_size_t, ctypes.POINTER(_Lacking), ctypes.c_size_t, ctypes.POINTER(_Size)]),
    "pef_stub": (ctypes.c_uint32, [ctypes.POINTER(_Context), ctypes.c_char_p, ctypes.c_size_t, ctypes.POINTER(_StubOptions), ctypes.c_void_p, ctypes.c_size_t, ctypes.POINTER(_Size), ctypes.POINTER(_Size)]),
    "pef_prepare": (ctypes.c_uint32, [ctypes.POINTER(_Context), ctypes.c_char_p, ctypes.c_size_t, ctypes.POINTER(ctypes.c_uint32), ctypes.POINTER(_Names)]),
    "pef_prepare_with_place": (ctypes.c_uint32, [ctypes.POINTER(_Context), ctypes.c_char_p, ctypes.c_size_t, ctypes.POINTER(ctypes.c_uint32), ctypes.POINTER(_Names), ctypes.POINTER(_Place)]),
    "pef_new_sections": (ctypes.c_uint32, [ctypes.POINTER(_Context), ctypes.c_char_p, ctypes.c_size_t, ctypes.c_size_t, ctypes.POINTER(_NewSection), ctypes.c_size_t, ctypes.POINTER(_Size), ctypes.POINTER(_Names)]),
    "pef_new_sections_with_place": (ctypes.c_uint32, [ctypes.POINTER(_Context), ctypes.c_char_p, ctypes.c_size_t, ctypes.c_size_t, ctypes.POINTER(_NewSection), ctypes.c_size_t, ctypes.POINTER(_Size), ctypes.POINTER(_Names), ctypes.POINTER(_Place)]),
    "pef_prepare_at": (ctypes.c_uint32, [ctypes.POINTER(_Context), ctypes.c_char_p, ctypes.c_size_t, ctypes.POINTER(ctypes.c_uint32), ctypes.c_size_t, ctypes.POINTER(ctypes.c_uint32), ctypes.POINTER(_Names), ctypes.POINTER(_Place)]),
    "pef_close": (ctypes.c_uint32, [ctypes.POINTER(_Context), ctypes.c_uint32]),
    "pef_new_fragments": (ctypes.c_uint32, [ctypes.POINTER(_Context), ctypes.c_uint32, ctypes.POINTER(_Size), ctypes.c_size_t, ctypes.POINTER(_Size)]),
    "pef_released_by": (ctypes.c_uint32, [ctypes.POINTER(_Context), ctypes.c_uint32, ctypes.POINTER(_Size), ctypes.c_size_t, ctypes.POINTER(_Size)]),
    "pef_fragments": (ctypes.c_uint32, [ctypes.POINTER(_Context), ctypes.c_uint32, ctypes.POINTER(_Size), ctypes.c_size_t, ctypes.POINTER(_Size)]),
    "pef_init_order": (ctypes.c_uint32, [ctypes.POINTER(_Context), ctypes.c_uint32, ctypes.POINTER(_Size), ctypes.c_size_t, ctypes.POINTER(_Size)]),
    "pef_fragment_name": (ctypes.c_uint32, [ctypes.POINTER(_Context), ctypes.c_size_t, ctypes.POINTER(_Bytes)]),
    "pef_next_fragment": (ctypes.c_uint32, [ctypes.POINTER(_Context), ctypes.c_size_t, ctypes.POINTER(_Size)]),
    "pef_is_present": (ctypes.c_uint32, [ctypes.POINTER(_Context), ctypes.c_char_p, ctypes.c_size_t, ctypes.POINTER(ctypes.c_bool)]),
    "pef_fragment_sections": (ctypes.c_uint32, [ctypes.POINTER(_Context), ctypes.c_size_t, ctypes.POINTER(_Size)]),
    "pef_fragment_section": (ctypes.c_uint32, [ctypes.POINTER(_Context), ctypes.c_uint32, ctypes.c_size_t, ctypes.c_size_t, ctypes.POINTER(_FragmentSection)]),
    "pef_fragment_bytes": (ctypes.c_uint32, [ctypes.POINTER(_Context), ctypes.c_size_t, ctypes.c_size_t, ctypes.c_void_p, ctypes.c_size_t, ctypes.POINTER(_Size)]),
    "pef_fragment_entries": (ctypes.c_uint32, [ctypes.POINTER(_Context), ctypes.c_uint32, ctypes.c_size_t, ctypes.POINTER(_Entries)]),
    "pef_fragment_symbol": (ctypes.c_uint32, [ctypes.POINTER(_Context), ctypes.c_uint32, ctypes.c_size_t, ctypes.c_char_p, ctypes.c_size_t, ctypes.POINTER(ctypes.c_uint32)]),
    "pef_import_target": (ctypes.c_uint32, [ctypes.POINTER(_Context), ctypes.c_uint32, ctypes.c_size_t, ctypes.c_size_t, ctypes.POINTER(_Target)]),
    "pef_export_address": (ctypes.c_uint32, [ctypes.POINTER(_Context), ctypes.c_uint32, ctypes.c_size_t, ctypes.c_size_t, ctypes.POINTER(ctypes.c_uint32)]),
    "pef_fragment_exports": (ctypes.c_uint32, [ctypes.POINTER(_Context), ctypes.c_uint32, ctypes.c_size_t, ctypes.POINTER(_Size)]),
    "pef_fragment_export": (ctypes.c_uint32, [ctypes.POINTER(_Context), ctypes.c_uint32, ctypes.c_size_t, ctypes.c_size_t, ctypes.POINTER(_FragmentExport)]),
    "pef_fragment_export_named": (ctypes.c_uint32, [ctypes.POINTER(_Context), ctypes.c_uint32, ctypes.c_size_t, ctypes.c_char_p, ctypes.c_size_t, ctypes.POINTER(_FragmentExport)]),
    "pef_fragment_import_named": (ctypes.c_uint32, [ctypes.POINTER(_Context), ctypes.c_uint32, ctypes.c_size_t, ctypes.c_char_p, ctypes.c_size_t, ctypes.POINTER(_Size)]),
    "pef_at": (ctypes.c_uint32, [ctypes.POINTER(_Context), ctypes.c_uint32, ctypes.POINTER(_Location)]),
}
