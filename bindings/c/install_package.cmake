# cmake -DTO=FOLDER -P install_package.cmake   puts what find_package(promql) reads into FOLDER, which is lib/cmake/promql below a prefix.
include(CMakePackageConfigHelpers)
file(STRINGS "${CMAKE_CURRENT_LIST_DIR}/promql.pc" version REGEX "^Version: ")
string(REPLACE "Version: " "" version "${version}")
write_basic_package_version_file("${TO}/promql-config-version.cmake" VERSION "${version}" COMPATIBILITY SameMinorVersion)
file(COPY "${CMAKE_CURRENT_LIST_DIR}/promql-config.cmake" "${CMAKE_CURRENT_LIST_DIR}/promql_targets.cmake" DESTINATION "${TO}")
