# What find_package(promql) reads where the library was installed.
include("${CMAKE_CURRENT_LIST_DIR}/promql_targets.cmake")
get_filename_component(_promql_prefix "${CMAKE_CURRENT_LIST_DIR}/../../.." ABSOLUTE)
promql_add_targets("${_promql_prefix}/lib" "${_promql_prefix}/include")
unset(_promql_prefix)
