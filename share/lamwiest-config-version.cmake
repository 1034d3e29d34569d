# The first two numbers have to be the same, and the third may be greater than the one that is asked for.
set(PACKAGE_VERSION @VERSION@)
string(REGEX REPLACE "[.][0-9]+$" "" lamwiest_form "${PACKAGE_VERSION}")
if("${PACKAGE_FIND_VERSION_MAJOR}.${PACKAGE_FIND_VERSION_MINOR}" VERSION_EQUAL lamwiest_form
        AND NOT PACKAGE_FIND_VERSION VERSION_GREATER PACKAGE_VERSION)
    set(PACKAGE_VERSION_COMPATIBLE TRUE)
endif()
if(PACKAGE_FIND_VERSION VERSION_EQUAL PACKAGE_VERSION)
    set(PACKAGE_VERSION_EXACT TRUE)
endif()
unset(lamwiest_form)
