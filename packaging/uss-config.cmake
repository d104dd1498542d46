# find_package(uss), then target_link_libraries(YOURS PRIVATE uss::uss). The folder may be moved as a whole.
if(NOT TARGET uss::uss)
    get_filename_component(_uss_prefix "${CMAKE_CURRENT_LIST_DIR}/../../.." ABSOLUTE)
    add_library(uss::uss STATIC IMPORTED)
    set_target_properties(uss::uss PROPERTIES
        IMPORTED_LOCATION "${_uss_prefix}/lib/libuss_c.a"
        INTERFACE_INCLUDE_DIRECTORIES "${_uss_prefix}/include")
    unset(_uss_prefix)
endif()
