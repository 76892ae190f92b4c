# find_package(vezhnake) defines the targets vezhnake::vezhnake (shared) and vezhnake::static.
get_filename_component(_vezhnake_prefix "${CMAKE_CURRENT_LIST_DIR}/../../.." ABSOLUTE)
foreach(_vezhnake_kind IN ITEMS SHARED STATIC)
  if(_vezhnake_kind STREQUAL SHARED)
    set(_vezhnake_target vezhnake::vezhnake)
    set(_vezhnake_file libvezhnake.so)
  else()
    set(_vezhnake_target vezhnake::static)
    set(_vezhnake_file libvezhnake.a)
  endif()
  if(NOT TARGET ${_vezhnake_target})
    add_library(${_vezhnake_target} ${_vezhnake_kind} IMPORTED)
    set_target_properties(${_vezhnake_target} PROPERTIES
      IMPORTED_LOCATION "${_vezhnake_prefix}/lib/${_vezhnake_file}"
      INTERFACE_INCLUDE_DIRECTORIES "${_vezhnake_prefix}/include")
  endif()
endforeach()
