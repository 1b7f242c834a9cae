# find_package(boc) gives boc::shared and boc::static; link one of them. The release may be unpacked anywhere.
if(NOT TARGET boc::shared)
  get_filename_component(boc_prefix "${CMAKE_CURRENT_LIST_DIR}/../../.." ABSOLUTE)
  add_library(boc::shared SHARED IMPORTED)
  add_library(boc::static STATIC IMPORTED)
  set_target_properties(boc::shared PROPERTIES
    IMPORTED_LOCATION "${boc_prefix}/lib/libboc.so.@ABI@" IMPORTED_SONAME "libboc.so.@ABI@")
  set_target_properties(boc::static PROPERTIES IMPORTED_LOCATION "${boc_prefix}/lib/libboc.a")
  set_target_properties(boc::shared boc::static PROPERTIES INTERFACE_INCLUDE_DIRECTORIES "${boc_prefix}/include")
  unset(boc_prefix)
endif()
