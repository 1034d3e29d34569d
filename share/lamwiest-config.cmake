# find_package(lamwiest) makes the target lamwiest::lamwiest, the shared library, and lamwiest::static.
get_filename_component(lamwiest_root "${CMAKE_CURRENT_LIST_DIR}/../../.." ABSOLUTE)
if(NOT TARGET lamwiest::lamwiest)
    find_package(Threads REQUIRED)
    add_library(lamwiest::lamwiest SHARED IMPORTED)
    set_target_properties(lamwiest::lamwiest PROPERTIES
        IMPORTED_LOCATION "${lamwiest_root}/lib/liblamwiest.so.0"
        IMPORTED_SONAME liblamwiest.so.0
        INTERFACE_INCLUDE_DIRECTORIES "${lamwiest_root}/include")
    add_library(lamwiest::static STATIC IMPORTED)
    set_target_properties(lamwiest::static PROPERTIES
        IMPORTED_LOCATION "${lamwiest_root}/lib/liblamwiest.a"
        INTERFACE_INCLUDE_DIRECTORIES "${lamwiest_root}/include"
        INTERFACE_LINK_LIBRARIES Threads::Threads)
endif()
unset(lamwiest_root)
