# The library cbs, for find_package(cbs 0.1 REQUIRED). The folder in which include/ and lib/ stand has to be in CMAKE_PREFIX_PATH,
# unless it is one of the system's, such as /usr.
#
# The targets: cbs::cbs, the shared library, and cbs::static, the static one. Both have the library's heap (heap.c) in them.
#
# This file stands in cmake/cbs of the libraries' folder: lib/, or one of an architecture in that, as on Debian.
get_filename_component(_cbs_lib "${CMAKE_CURRENT_LIST_DIR}/../.." REALPATH)
get_filename_component(_cbs_include "${_cbs_lib}/../include" ABSOLUTE)
if(NOT EXISTS "${_cbs_include}/cbs.h")
  get_filename_component(_cbs_include "${_cbs_lib}/../../include" ABSOLUTE)
endif()
if(NOT TARGET cbs::cbs)
  add_library(cbs::cbs SHARED IMPORTED)
  set_target_properties(cbs::cbs PROPERTIES
    IMPORTED_LOCATION "${_cbs_lib}/libcbs.so"
    INTERFACE_INCLUDE_DIRECTORIES "${_cbs_include}")
endif()
if(NOT TARGET cbs::static)
  add_library(cbs::static STATIC IMPORTED)
  set_target_properties(cbs::static PROPERTIES
    IMPORTED_LOCATION "${_cbs_lib}/libcbs.a"
    INTERFACE_INCLUDE_DIRECTORIES "${_cbs_include}")
endif()
unset(_cbs_include)
unset(_cbs_lib)
