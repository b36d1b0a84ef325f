# find_package(smoltcp-proved) makes the targets smoltcp-proved::smoltcp-proved, of sockets alone, and
# smoltcp-proved::host, of a host of them, which has the sockets too. A program takes one of the two.
if(NOT TARGET smoltcp-proved::smoltcp-proved)
    get_filename_component(_smoltcp_proved_prefix "${CMAKE_CURRENT_LIST_DIR}/../../.." ABSOLUTE)
    add_library(smoltcp-proved::smoltcp-proved STATIC IMPORTED)
    set_target_properties(smoltcp-proved::smoltcp-proved PROPERTIES
        IMPORTED_LOCATION "${_smoltcp_proved_prefix}/lib/libsmoltcp_c.a"
        INTERFACE_INCLUDE_DIRECTORIES "${_smoltcp_proved_prefix}/include")
    add_library(smoltcp-proved::host STATIC IMPORTED)
    set_target_properties(smoltcp-proved::host PROPERTIES
        IMPORTED_LOCATION "${_smoltcp_proved_prefix}/lib/libsmoltcp_host.a"
        INTERFACE_INCLUDE_DIRECTORIES "${_smoltcp_proved_prefix}/include")
    unset(_smoltcp_proved_prefix)
endif()
