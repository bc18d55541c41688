# liktrob::liktrob is the shared object, and liktrob::static the archive, for all x86-64 processors.
include(CMakeFindDependencyMacro)
find_dependency(Threads)
get_filename_component(liktrob_root "${CMAKE_CURRENT_LIST_DIR}/../../.." ABSOLUTE)
if(NOT TARGET liktrob::liktrob)
  add_library(liktrob::liktrob SHARED IMPORTED)
  set_target_properties(liktrob::liktrob PROPERTIES
    IMPORTED_LOCATION "${liktrob_root}/lib/any/libliktrob.so"
    IMPORTED_SONAME "@SONAME@"
    INTERFACE_INCLUDE_DIRECTORIES "${liktrob_root}/include")
  add_library(liktrob::static STATIC IMPORTED)
  set_target_properties(liktrob::static PROPERTIES
    IMPORTED_LOCATION "${liktrob_root}/lib/any/libliktrob.a"
    INTERFACE_INCLUDE_DIRECTORIES "${liktrob_root}/include"
    INTERFACE_LINK_LIBRARIES Threads::Threads)
endif()
unset(liktrob_root)
