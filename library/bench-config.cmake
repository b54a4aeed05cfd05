# find_package(bench): the targets bench::bench, the shared library, and bench::static.
get_filename_component(bench_prefix "${CMAKE_CURRENT_LIST_DIR}/../../.." ABSOLUTE)
if(NOT TARGET bench::bench)
  add_library(bench::bench SHARED IMPORTED)
  set_target_properties(bench::bench PROPERTIES IMPORTED_LOCATION "${bench_prefix}/lib/libbench.so.1" IMPORTED_SONAME libbench.so.1
    INTERFACE_INCLUDE_DIRECTORIES "${bench_prefix}/include")
  add_library(bench::static STATIC IMPORTED)
  set_target_properties(bench::static PROPERTIES IMPORTED_LOCATION "${bench_prefix}/lib/libbench.a"
    INTERFACE_INCLUDE_DIRECTORIES "${bench_prefix}/include")
endif()
