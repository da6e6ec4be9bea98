// Written by tools/declarations from include/pef.h. Change that, and run it again.

places! {
    pef_bytes { at length }
    pef_listing { handle is_open }
    pef_place { part row field offset }
    pef_finding { place detail number is_error detail_kind }
    pef_report { handle is_open }
    pef_found_container { offset length number skipped budget program_bytes steps packed_bytes words }
    pef_row_range { offset part from count }
    pef_header { date_time_stamp old_def_version old_imp_version current_version section_count instantiated_section_count architecture }
    pef_section { default_address total_size unpacked_size packed_size container_offset kind share alignment }
    pef_loader { main_section main_offset init_section init_offset term_section term_offset library_count import_count relocation_count export_count }
    pef_library { name current_version old_imp_version import_count first_import options }
    pef_import { name library symbol_class weak }
    pef_relocation { instructions section }
    pef_fixup { offset number kind }
    pef_export { name section value symbol_class }
    pef_part { bytes offset error_offset error }
    pef_finder { error_offset error file_type creator flags vertical horizontal window }
    pef_forks { data_fork resource_fork name comment finder error_offset error kind }
    pef_resource_map { error_offset error data_offset map_offset data_length map_length attributes type_count }
    pef_resource { name bytes offset error_offset name_error_offset error name_error r#type id type_row row attributes }
    pef_member { name container place error_offset name_error_offset container_error_offset error name_error container_error architecture current_version old_def_version stack_size offset length space_id directory_or_flags fork_instance extension_count size update_level usage locator }
    pef_context { handle is_open }
    pef_options { size limit granule connections steps bytes }
    pef_names { fragment library symbol }
    pef_missing { name fragment current_version old_imp_version found_version found_old_def_version is_weak is_found }
    pef_lacking { name is_weak }
    pef_stub_options { size values first step word zeros }
    pef_new_section { fragment section kind share size alignment }
    pef_fragment_section { address size kind share }
    pef_entries { init main term has_init has_main has_term }
    pef_target { kind fragment section offset address }
    pef_fragment_export { name number target import_number symbol_class is_reexport }
    pef_location { fragment section connection offset has_nearest nearest }
}

constants! {
    PEF_VERSION_MAJOR
    PEF_VERSION_MINOR
    PEF_VERSION_PATCH
    PEF_VERSION_NUMBER
    PEF_OK
    PEF_TOO_SHORT
    PEF_BAD_TAG
    PEF_BAD_ARCHITECTURE
    PEF_BAD_FORMAT_VERSION
    PEF_BAD_SECTION_COUNTS
    PEF_SECTION_OUTSIDE
    PEF_BAD_SECTION_KIND
    PEF_BAD_SIZES
    PEF_BAD_ALIGNMENT
    PEF_NO_LOADER
    PEF_LOADER_SHORT
    PEF_BAD_TABLE_OFFSET
    PEF_BAD_NAME
    PEF_BAD_LIBRARY_RANGE
    PEF_ORPHAN_IMPORT
    PEF_BAD_ENTRY
    PEF_BAD_RELOC_SECTION
    PEF_RELOC_OUTSIDE
    PEF_BAD_EXPORT_TABLE
    PEF_BAD_EXPORT_SECTION
    PEF_PACKED_TRUNCATED
    PEF_PACKED_BAD_OPCODE
    PEF_PACKED_COUNT_TOO_LARGE
    PEF_PACKED_TOO_LONG
    PEF_PACKED_TOO_SHORT
    PEF_RELOC_BAD_OPCODE
    PEF_RELOC_CUT_INSTRUCTION
    PEF_RELOC_REPEAT_TOO_FAR
    PEF_RELOC_REPEAT_CUTS
    PEF_RELOC_NESTED_REPEAT
    PEF_RELOC_TOO_MANY_STEPS
    PEF_RELOC_WORD_OUTSIDE
    PEF_RELOC_IMPORT_OUTSIDE
    PEF_RELOC_SECTION_OUTSIDE
    PEF_SCRIPT_BAD_LINE
    PEF_SCRIPT_BAD_NUMBER
    PEF_SCRIPT_UNKNOWN_NAME
    PEF_SCRIPT_REPEATED_NAME
    PEF_SCRIPT_OUT_OF_ORDER
    PEF_SCRIPT_OVERLAP
    PEF_SCRIPT_OUTSIDE_SECTION
    PEF_SCRIPT_TOO_MANY
    PEF_SCRIPT_BAD_KIND
    PEF_ROOT_MISSING
    PEF_LIBRARY_MISSING
    PEF_SYMBOL_MISSING
    PEF_IMPLEMENTATION_TOO_OLD
    PEF_IMPLEMENTATION_TOO_NEW
    PEF_REEXPORT_LOOP
    PEF_INIT_LOOP
    PEF_NO_ROOM
    PEF_BAD_CONNECTION
    PEF_TOO_MANY_CONNECTIONS
    PEF_TOO_MANY_STEPS_IN_ALL
    PEF_TOO_MANY_BYTES
    PEF_DATA_FORK_CUT
    PEF_RESOURCE_FORK_CUT
    PEF_COMMENT_CUT
    PEF_NO_CONTAINER
    PEF_BAD_MAC_BINARY_CRC
    PEF_APPLE_HEADER_CUT
    PEF_BAD_APPLE_VERSION
    PEF_APPLE_ENTRY_CUT
    PEF_APPLE_ENTRY_OUTSIDE
    PEF_APPLE_ENTRY_SHORT
    PEF_RESOURCE_MAP_OUTSIDE
    PEF_BAD_TYPE_LIST
    PEF_RESOURCE_TYPE_CUT
    PEF_TOO_MANY_REFERENCES
    PEF_REFERENCE_CUT
    PEF_RESOURCE_NAME_CUT
    PEF_RESOURCE_DATA_OUTSIDE
    PEF_FRAGMENT_TABLE_CUT
    PEF_BAD_FRAGMENT_TABLE
    PEF_MEMBER_CUT
    PEF_MEMBER_NAME_CUT
    PEF_FRAGMENT_OUTSIDE
    PEF_OUT_OF_MEMORY
    PEF_NOTE_RESERVED_NOT_ZERO
    PEF_NOTE_UNKNOWN_KIND
    PEF_NOTE_UNKNOWN_SHARE
    PEF_NOTE_VERSION_BELOW_OLDEST
    PEF_NOTE_ENTRY_OUTSIDE
    PEF_NOTE_EXPORT_OUTSIDE
    PEF_NOTE_WORD_OUTSIDE_IMAGE
    PEF_NOTE_IRREGULAR_EXPORTS
    PEF_NOTE_TRAILING_BYTES
    PEF_NOTE_PROGRAMS_UNVERIFIED
    PEF_NOTE_IMAGES_UNVERIFIED
    PEF_NOTE_OVERLAP
    PEF_NOTE_UNOWNED_BYTES
    PEF_NOTE_WORD_RELOCATED_TWICE
    PEF_NOTE_CONTAINERS_UNVERIFIED
    PEF_NOTE_SECTIONS_OUT_OF_ORDER
    PEF_NOTE_BYTES_AFTER_FORKS
    PEF_NOTE_FRAGMENT_SHORT
    PEF_NOTE_DATA_FORK_ELSEWHERE
    PEF_NOTE_NOT_UNPACKED
    PEF_NOTE_NAME_OUTSIDE
    PEF_NOTE_FRAGMENT_ARCHITECTURE
    PEF_NOTE_FRAGMENT_USAGE
    PEF_NOTE_TEXT_DAMAGE
    PEF_NOTE_ZERO_ROWS
    PEF_ROOM_TOO_SMALL
    PEF_NOT_THERE
    PEF_NOT_OPEN
    PEF_ADDED_TOO_LATE
    PEF_STORE_FULL
    PEF_BAD_GRANULE
    PEF_BAD_OPTIONS
    PEF_STILL_PRESENT
    PEF_STILL_NAMED
    PEF_NAME_TAKEN
    PEF_WRONG_ADDRESS_COUNT
    PEF_TOO_MANY_SYMBOLS
    PEF_LONG_NAME
    PEF_TOO_MANY_NAME_BYTES
    PEF_PAST_LAST_NUMBER
    PEF_UNSPELLABLE_NAME
    PEF_TOO_MANY_STUB_BYTES
    PEF_MAX_FRAGMENTS
    PEF_MAX_CONNECTIONS
    PEF_KIND_CODE
    PEF_KIND_DATA
    PEF_KIND_PACKED
    PEF_KIND_CONSTANT
    PEF_KIND_LOADER
    PEF_KIND_DEBUG
    PEF_KIND_EXECUTABLE_DATA
    PEF_KIND_EXCEPTION
    PEF_KIND_TRACEBACK
    PEF_SHARE_PROCESS
    PEF_SHARE_GLOBAL
    PEF_SHARE_PROTECTED
    PEF_CLASS_CODE
    PEF_CLASS_DATA
    PEF_CLASS_TVECTOR
    PEF_CLASS_TOC
    PEF_CLASS_GLUE
    PEF_NO_ENTRY
    PEF_ABSOLUTE
    PEF_REEXPORT
    PEF_LIBRARY_WEAK
    PEF_LIBRARY_INIT_BEFORE
    PEF_NOWHERE
    PEF_CONTAINER_HEADER_PART
    PEF_SECTION_PART
    PEF_LOADER_HEADER_PART
    PEF_LIBRARY_PART
    PEF_IMPORT_PART
    PEF_MAIN_PART
    PEF_INIT_PART
    PEF_TERM_PART
    PEF_RELOCATION_PART
    PEF_EXPORT_PART
    PEF_PACKED_DATA_PART
    PEF_PROGRAM_PART
    PEF_LINE_PART
    PEF_NO_OFFSET
    PEF_DETAIL_NONE
    PEF_DETAIL_WORD
    PEF_DETAIL_LENGTH
    PEF_DETAIL_SECTIONS
    PEF_ARCHITECTURE_POWERPC
    PEF_ARCHITECTURE_68K
    PEF_FIXUP_SECTION
    PEF_FIXUP_IMPORT
    PEF_NO_LIBRARY
    PEF_FILE_OTHER
    PEF_FILE_CONTAINER
    PEF_FILE_MAC_BINARY
    PEF_FILE_APPLE_SINGLE
    PEF_FILE_APPLE_DOUBLE
    PEF_FILE_DAMAGED_APPLE
    PEF_FILE_RESOURCE_FORK
    PEF_FRAGMENT_TABLE_TYPE
    PEF_USAGE_IMPORT_LIBRARY
    PEF_USAGE_APPLICATION
    PEF_USAGE_DROP_IN_ADDITION
    PEF_USAGE_STUB_LIBRARY
    PEF_USAGE_WEAK_STUB_LIBRARY
    PEF_LOCATOR_MEMORY
    PEF_LOCATOR_DATA_FORK
    PEF_LOCATOR_RESOURCE
    PEF_STUB_NUMBERS
    PEF_STUB_MEMORY
    PEF_TARGET_MISSING
    PEF_TARGET_ABSOLUTE
    PEF_TARGET_IN_SECTION
}
