# The target hilldale::hilldale: the shared library, with its header.
get_filename_component(_hilldale_prefix "${CMAKE_CURRENT_LIST_DIR}/../../.." ABSOLUTE)
if(NOT TARGET hilldale::hilldale)
  add_library(hilldale::hilldale SHARED IMPORTED)
  set_target_properties(hilldale::hilldale PROPERTIES
    IMPORTED_LOCATION "${_hilldale_prefix}/lib/libhilldale.so.1"
    INTERFACE_INCLUDE_DIRECTORIES "${_hilldale_prefix}/include")
endif()
