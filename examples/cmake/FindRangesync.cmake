# Finds the library for C, and makes the target Rangesync::rangesync of it. Copy this file into your own project.
#
# It looks at Rangesync_ROOT first, then at the repository that this file lies in, if it does, where c/build puts the
# library, and then where this machine has libraries.

set(repository "${CMAKE_CURRENT_LIST_DIR}/../..")

find_path(Rangesync_INCLUDE_DIR rangesync.h HINTS "${repository}/c")
find_library(Rangesync_LIBRARY rangesync HINTS "${repository}/c/out")

include(FindPackageHandleStandardArgs)
find_package_handle_standard_args(Rangesync
    REQUIRED_VARS Rangesync_LIBRARY Rangesync_INCLUDE_DIR
    REASON_FAILURE_MESSAGE "c/build makes it, and Rangesync_ROOT may name the folder of another")
mark_as_advanced(Rangesync_INCLUDE_DIR Rangesync_LIBRARY)

if(Rangesync_FOUND AND NOT TARGET Rangesync::rangesync)
    add_library(Rangesync::rangesync UNKNOWN IMPORTED)
    set_target_properties(Rangesync::rangesync PROPERTIES
        IMPORTED_LOCATION "${Rangesync_LIBRARY}"
        INTERFACE_INCLUDE_DIRECTORIES "${Rangesync_INCLUDE_DIR}")
endif()
